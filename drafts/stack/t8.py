import sys,re
v=sys.argv[1]
p='crates/parts/src/list.rt'; s=open('/work/int5/'+p).read()
s=s.replace('    WaitingAt(Flight, u8),\n    WaitingForOthersAt(Flight, u8, u8),\n','')
i=s.index('        Which::WaitingAt(f, e) =>'); j=s.index('        Which::HasPlace(p) =>')
s=s[:i]+s[j:]
open('/tmp/t6/'+p,'w').write(s)
p='crates/station/src/rules/sight.rt'; s=open('/work/int5/'+p).read()
i=s.index('// What goes when the station is told')
head=s[:i]
common='''
pub fn is_due(version: u8, b: Best, f: parts::list::Flight, w: Whom) -> bool {
    if version != 2 {
        return false;
    }
    if !b.some {
        return false;
    }
    let m = b.message;
    if parts::list::flies(f, m) {
        return false;
    }
    match w {
        Whom::Nobody => true,
        Whom::Member(p) => m.other != p,
    }
}

pub fn due_of(version: u8, sends: Messages, entered: u8, f: parts::list::Flight, w: Whom, head: Best) -> Best {
    if version != 2 {
        return head;
    }
    let b = parts::list::choose(sends, Which::HasPlace(entered));
    if is_due(version, b, f, w) {
        return b;
    }
    head
}
'''
if v=='T6':
    body=common+'''
pub fn look(s: Station) -> Sight {
    let live = s.live;
    let next = parts::live::successor(live, s.n, s.own);
    let turn = s.turn;
    let awaited = turn.awaited;
    let flight = parts::frame::flight(awaited);
    let which = Which::AnyWaiting(flight);
    let head = parts::list::choose(s.sends, which);
    let due = due_of(s.version, s.sends, turn.entered, flight, Whom::Nobody, head);
    Sight { own: s.own, live, next, head, due, entered: turn.entered }
}
pub fn look_without(s: Station, p: u8) -> Sight {
    let live = parts::live::without(s.live, p as usize);
    let next = parts::live::successor(live, s.n, s.own);
    let turn = s.turn;
    let awaited = turn.awaited;
    let flight = parts::frame::flight(awaited);
    let which = Which::WaitingForOthers(flight, p);
    let head = parts::list::choose(s.sends, which);
    let due = due_of(s.version, s.sends, turn.entered, flight, Whom::Member(p), head);
    Sight { own: s.own, live, next, head, due, entered: turn.entered }
}
pub fn look_after(s: Station, w: Whom) -> Sight {
    match w {
        Whom::Nobody => look(s),
        Whom::Member(p) => look_without(s, p),
    }
}
'''
if v=='T7':
    body=common+'''
pub fn live_after(l: parts::live::Live, w: Whom) -> parts::live::Live {
    match w {
        Whom::Nobody => l,
        Whom::Member(p) => parts::live::without(l, p as usize),
    }
}
pub fn which_after(f: parts::list::Flight, w: Whom) -> Which {
    match w {
        Whom::Nobody => Which::AnyWaiting(f),
        Whom::Member(p) => Which::WaitingForOthers(f, p),
    }
}
pub fn look_after(s: Station, w: Whom) -> Sight {
    let turn = s.turn;
    let awaited = turn.awaited;
    let flight = parts::frame::flight(awaited);
    let live = live_after(s.live, w);
    let next = parts::live::successor(live, s.n, s.own);
    let head = parts::list::choose(s.sends, which_after(flight, w));
    let due = due_of(s.version, s.sends, turn.entered, flight, w, head);
    Sight { own: s.own, live, next, head, due, entered: turn.entered }
}
pub fn look(s: Station) -> Sight {
    look_after(s, Whom::Nobody)
}
pub fn look_without(s: Station, p: u8) -> Sight {
    look_after(s, Whom::Member(p))
}
'''
if v=='T8': # start without due; heard and timer as T6
    exec(open('/tmp/t8.py').read().split("if v=='T8'")[0].replace('v=sys.argv[1]',"v='T6'"))
    body+='''
pub fn look_first(s: Station) -> Sight {
    let live = s.live;
    let next = parts::live::successor(live, s.n, s.own);
    let turn = s.turn;
    let awaited = turn.awaited;
    let flight = parts::frame::flight(awaited);
    let which = Which::AnyWaiting(flight);
    let head = parts::list::choose(s.sends, which);
    Sight { own: s.own, live, next, head, due: head, entered: turn.entered }
}
'''
    q='crates/station/src/rules/start.rt'; t=open('/work/int5/'+q).read()
    open('/tmp/t6/'+q,'w').write(t.replace('sight::look(s)','sight::look_first(s)'))

if v in ('T9','T10'):
    heads = '''
pub struct Heads {
    pub head: Best,
    pub due: Best,
}

// both are chosen by position, and read there
pub fn heads_of(sends: Messages, which: Which, version: u8, entered: u8, f: parts::list::Flight, w: Whom) -> Heads {
    let i = parts::list::chosen_at(sends, which);
    let head = parts::list::standing(sends, i);
    if version != 2 {
        return Heads { head, due: head };
    }
    let j = parts::list::chosen_at(sends, Which::HasPlace(entered));
    let b = parts::list::standing(sends, j);
    if is_due(version, b, f, w) {
        return Heads { head, due: b };
    }
    Heads { head, due: head }
}

pub fn sight_of(own: u8, n: u8, live: parts::live::Live, h: Heads, entered: u8) -> Sight {
    let next = parts::live::successor(live, n, own);
    Sight { own, live, next, head: h.head, due: h.due, entered }
}
'''
    look = '''
pub fn look(s: Station) -> Sight {
    let turn = s.turn;
    let awaited = turn.awaited;
    let f = parts::frame::flight(awaited);
    let h = heads_of(s.sends, Which::AnyWaiting(f), s.version, turn.entered, f, Whom::Nobody);
    sight_of(s.own, s.n, s.live, h, turn.entered)
}
pub fn look_without(s: Station, p: u8) -> Sight {
    let turn = s.turn;
    let awaited = turn.awaited;
    let f = parts::frame::flight(awaited);
    let h = heads_of(s.sends, Which::WaitingForOthers(f, p), s.version, turn.entered, f, Whom::Member(p));
    sight_of(s.own, s.n, parts::live::without(s.live, p as usize), h, turn.entered)
}
pub fn look_after(s: Station, w: Whom) -> Sight {
    match w {
        Whom::Nobody => look(s),
        Whom::Member(p) => look_without(s, p),
    }
}
'''
    body=common+heads+look
    if v=='T10':
        body+='''
pub fn look_first(s: Station) -> Sight {
    let turn = s.turn;
    let awaited = turn.awaited;
    let f = parts::frame::flight(awaited);
    let head = parts::list::choose(s.sends, Which::AnyWaiting(f));
    let h = Heads { head, due: head };
    sight_of(s.own, s.n, s.live, h, turn.entered)
}
'''
        q='crates/station/src/rules/start.rt'; t=open('/work/int5/'+q).read()
        open('/tmp/t6/'+q,'w').write(t.replace('sight::look(s)','sight::look_first(s)'))

if v in ('T11','T12','T13'):
    heads = '''
pub struct Heads {
    pub head: Best,
    pub due: Best,
}
pub fn which_after(f: parts::list::Flight, w: Whom) -> Which {
    match w {
        Whom::Nobody => Which::AnyWaiting(f),
        Whom::Member(p) => Which::WaitingForOthers(f, p),
    }
}
pub fn live_after(l: parts::live::Live, w: Whom) -> parts::live::Live {
    match w {
        Whom::Nobody => l,
        Whom::Member(p) => parts::live::without(l, p as usize),
    }
}
pub fn heads_of(sends: Messages, version: u8, entered: u8, f: parts::list::Flight, w: Whom) -> Heads {
    let head = parts::list::choose(sends, which_after(f, w));
    if version != 2 {
        return Heads { head, due: head };
    }
    let b = parts::list::choose(sends, Which::HasPlace(entered));
    if is_due(version, b, f, w) {
        return Heads { head, due: b };
    }
    Heads { head, due: head }
}
'''
    if v=='T12':
        heads=heads.replace('let head = parts::list::choose(sends, which_after(f, w));','let i = parts::list::chosen_at(sends, which_after(f, w));\n    let head = parts::list::standing(sends, i);').replace('let b = parts::list::choose(sends, Which::HasPlace(entered));','let j = parts::list::chosen_at(sends, Which::HasPlace(entered));\n    let b = parts::list::standing(sends, j);')
    look = '''
pub fn look_after(s: Station, w: Whom) -> Sight {
    let turn = s.turn;
    let awaited = turn.awaited;
    let f = parts::frame::flight(awaited);
    let h = heads_of(s.sends, s.version, turn.entered, f, w);
    let live = live_after(s.live, w);
    let next = parts::live::successor(live, s.n, s.own);
    Sight { own: s.own, live, next, head: h.head, due: h.due, entered: turn.entered }
}
pub fn look(s: Station) -> Sight {
    look_after(s, Whom::Nobody)
}
pub fn look_without(s: Station, p: u8) -> Sight {
    look_after(s, Whom::Member(p))
}
'''
    if v=='T13':
        look = '''
pub fn look(s: Station) -> Sight {
    let turn = s.turn;
    let awaited = turn.awaited;
    let f = parts::frame::flight(awaited);
    let h = heads_of(s.sends, s.version, turn.entered, f, Whom::Nobody);
    let live = s.live;
    let next = parts::live::successor(live, s.n, s.own);
    Sight { own: s.own, live, next, head: h.head, due: h.due, entered: turn.entered }
}
pub fn look_without(s: Station, p: u8) -> Sight {
    let turn = s.turn;
    let awaited = turn.awaited;
    let f = parts::frame::flight(awaited);
    let h = heads_of(s.sends, s.version, turn.entered, f, Whom::Member(p));
    let live = parts::live::without(s.live, p as usize);
    let next = parts::live::successor(live, s.n, s.own);
    Sight { own: s.own, live, next, head: h.head, due: h.due, entered: turn.entered }
}
pub fn look_after(s: Station, w: Whom) -> Sight {
    match w {
        Whom::Nobody => look(s),
        Whom::Member(p) => look_without(s, p),
    }
}
'''
    body=common+heads+look

if v in ('T14','T15'):
    look = '''
pub fn look(s: Station) -> Sight {
    let live = s.live;
    let next = parts::live::successor(live, s.n, s.own);
    let turn = s.turn;
    let awaited = turn.awaited;
    let flight = parts::frame::flight(awaited);
    let which = Which::AnyWaiting(flight);
    let head = parts::list::choose(s.sends, which);
    Sight { own: s.own, live, next, head, due: head, entered: turn.entered }
}
pub fn look_without(s: Station, p: u8) -> Sight {
    let live = parts::live::without(s.live, p as usize);
    let next = parts::live::successor(live, s.n, s.own);
    let turn = s.turn;
    let awaited = turn.awaited;
    let flight = parts::frame::flight(awaited);
    let which = Which::WaitingForOthers(flight, p);
    let head = parts::list::choose(s.sends, which);
    Sight { own: s.own, live, next, head, due: head, entered: turn.entered }
}
pub fn look_after(s: Station, w: Whom) -> Sight {
    match w {
        Whom::Nobody => look(s),
        Whom::Member(p) => look_without(s, p),
    }
}
pub fn due_after(s: Station, w: Whom, head: Best) -> Best {
    let turn = s.turn;
    let awaited = turn.awaited;
    let flight = parts::frame::flight(awaited);
    due_of(s.version, s.sends, turn.entered, flight, w, head)
}
'''
    body=common+look
    q='crates/station/src/rules/heard.rt'; t=open('/work/int5/'+q).read()
    if v=='T14':
        t=t.replace('let v = crate::rules::sight::look_after(s, w);','let mut v = crate::rules::sight::look_after(s, w);\n    v.due = crate::rules::sight::due_after(s, w, v.head);')
    else:
        t=t.replace('    let v = crate::rules::sight::look_after(s, w);\n    let c = sent::round::reply(v, f);','    let mut v = crate::rules::sight::look_after(s, w);\n    if s.version == 2 {\n        let e = s.turn;\n        let b = parts::list::choose(s.sends, parts::list::Which::HasPlace(e.entered));\n        if crate::rules::sight::is_due(2, b, parts::frame::flight(e.awaited), w) {\n            v.due = b;\n        }\n    }\n    let c = sent::round::reply(v, f);')
    open('/tmp/t6/'+q,'w').write(t)

if v in ('T16','T17'):
    look = '''
pub fn which_after(f: parts::list::Flight, w: Whom) -> Which {
    match w {
        Whom::Nobody => Which::AnyWaiting(f),
        Whom::Member(p) => Which::WaitingForOthers(f, p),
    }
}
pub fn live_after(l: parts::live::Live, w: Whom) -> parts::live::Live {
    match w {
        Whom::Nobody => l,
        Whom::Member(p) => parts::live::without(l, p as usize),
    }
}
pub fn look(s: Station) -> Sight {
    let live = s.live;
    let next = parts::live::successor(live, s.n, s.own);
    let turn = s.turn;
    let awaited = turn.awaited;
    let flight = parts::frame::flight(awaited);
    let which = Which::AnyWaiting(flight);
    let head = parts::list::choose(s.sends, which);
    Sight { own: s.own, live, next, head, due: head, entered: turn.entered }
}
pub fn look_without(s: Station, p: u8) -> Sight {
    let live = parts::live::without(s.live, p as usize);
    let next = parts::live::successor(live, s.n, s.own);
    let turn = s.turn;
    let awaited = turn.awaited;
    let flight = parts::frame::flight(awaited);
    let which = Which::WaitingForOthers(flight, p);
    let head = parts::list::choose(s.sends, which);
    Sight { own: s.own, live, next, head, due: head, entered: turn.entered }
}
pub fn look_after(s: Station, w: Whom) -> Sight {
    let sends = s.sends;
    let turn = s.turn;
    let awaited = turn.awaited;
    let f = parts::frame::flight(awaited);
    let head = parts::list::choose(sends, which_after(f, w));
    let mut due = head;
    if s.version == 2 {
        let b = parts::list::choose(sends, Which::HasPlace(turn.entered));
        if is_due(2, b, f, w) {
            due = b;
        }
    }
    let live = live_after(s.live, w);
    let next = parts::live::successor(live, s.n, s.own);
    Sight { own: s.own, live, next, head, due, entered: turn.entered }
}
'''
    if v=='T17':
        look=look.replace("""    let head = parts::list::choose(sends, which_after(f, w));
    let mut due = head;
    if s.version == 2 {
        let b = parts::list::choose(sends, Which::HasPlace(turn.entered));""","""    let head = parts::list::choose(sends, which_after(f, w));
    let mut due = head;
    if s.version == 2 {
        let at = parts::list::chosen_at(sends, Which::HasPlace(turn.entered));
        let b = parts::list::standing(sends, at);""")
    body=common.replace('pub fn due_of','pub fn due_of_old')+look
p='crates/station/src/rules/sight.rt'
open('/tmp/t6/'+p,'w').write(head+body)
