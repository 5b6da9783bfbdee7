import sys,re
v=sys.argv[1]
p='crates/station/src/rules/sight.rt'; s=open('/work/int5/'+p).read()
i=s.index('pub fn look(s: Station)')
head=s[:i]
heads='''pub struct Heads {
    pub head: Best,
    pub due: Best,
}

pub fn heads_of(version: u8, sends: Messages, which: Which, at: Which) -> Heads {
    let i = parts::list::chosen_at(sends, which);
    let mut j = i;
    if version == 2 {
        let e = parts::list::chosen_at(sends, at);
        if e < 16 {
            j = e;
        }
    }
    let head = parts::list::standing(sends, i);
    let due = parts::list::standing(sends, j);
    Heads { head, due }
}

'''
if v=='T3':
    body=heads+'''
pub fn sight_by(s: Station, live: parts::live::Live, which: Which, at: Which) -> Sight {
    let turn = s.turn;
    let next = parts::live::successor(live, s.n, s.own);
    let h = heads_of(s.version, s.sends, which, at);
    Sight { own: s.own, live, next, head: h.head, due: h.due, entered: turn.entered }
}

pub fn live_after(l: parts::live::Live, w: Whom) -> parts::live::Live {
    match w {
        Whom::Nobody => l,
        Whom::Member(p) => parts::live::without(l, p as usize),
    }
}
pub fn which_after(f: parts::list::Flight, w: Whom) -> Which {
    match w {
        Whom::Nobody => Which::AnyWaiting(f),
        Whom::Member(p) => Which::WaitingForOthers(f, p),
    }
}
pub fn at_after(f: parts::list::Flight, w: Whom, e: u8) -> Which {
    match w {
        Whom::Nobody => Which::WaitingAt(f, e),
        Whom::Member(p) => Which::WaitingForOthersAt(f, p, e),
    }
}
pub fn look_after(s: Station, w: Whom) -> Sight {
    let turn = s.turn;
    let awaited = turn.awaited;
    let flight = parts::frame::flight(awaited);
    let live = live_after(s.live, w);
    let which = which_after(flight, w);
    let at = at_after(flight, w, turn.entered);
    sight_by(s, live, which, at)
}
pub fn look(s: Station) -> Sight {
    look_after(s, Whom::Nobody)
}
pub fn look_without(s: Station, p: u8) -> Sight {
    look_after(s, Whom::Member(p))
}
'''
    s=head+body
if v=='T4': # start does not look at what is due
    s=open('/work/int5/'+p).read()
    body=heads+s[i:]
    s=head+body
    s=re.sub(r'    let head = parts::list::choose\(s.sends, which\);\n    let at = (.*?);\n    let due = due_of\(s.version, s.sends, at, head\);\n',r'    let at = \1;\n    let h = heads_of(s.version, s.sends, which, at);\n    let head = h.head;\n    let due = h.due;\n',s)
    q='crates/station/src/rules/start.rt'; t=open('/work/int5/'+q).read()
    s+='''
pub fn look_first(s: Station) -> Sight {
    let live = s.live;
    let next = parts::live::successor(live, s.n, s.own);
    let turn = s.turn;
    let awaited = turn.awaited;
    let flight = parts::frame::flight(awaited);
    let which = Which::AnyWaiting(flight);
    let head = parts::list::choose(s.sends, which);
    Sight { own: s.own, live, next, head, due: head, entered: turn.entered }
}
'''
    open('/tmp/t6/'+q,'w').write(t.replace('sight::look(s)','sight::look_first(s)'))
open('/tmp/t6/'+p,'w').write(s)
if v in ('T5','T6'):
    import subprocess
    sys.argv[1]='T3'
    src=open('/tmp/t7.py').read().split("if v in ('T5','T6')")[0].replace("v=sys.argv[1]","v='T3'")
    exec(src)
    s=open('/tmp/t6/'+p).read()
    s+='''
pub fn look_first(s: Station) -> Sight {
    let live = s.live;
    let next = parts::live::successor(live, s.n, s.own);
    let turn = s.turn;
    let awaited = turn.awaited;
    let flight = parts::frame::flight(awaited);
    let which = Which::AnyWaiting(flight);
    let head = parts::list::choose(s.sends, which);
    Sight { own: s.own, live, next, head, due: head, entered: turn.entered }
}
'''
    if v=='T6' or True: pass
    open('/tmp/t6/'+p,'w').write(s)
    q='crates/station/src/rules/start.rt'; t=open('/work/int5/'+q).read()
    open('/tmp/t6/'+q,'w').write(t.replace('sight::look(s)','sight::look_first(s)'))
