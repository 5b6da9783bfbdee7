#!/bin/bash
# sync3.sh TREE OUT
rm -rf /tmp/s3w; mkdir /tmp/s3w; cd /tmp/s3w; git init -q .; cp -r $1/crates .; cp $1/crates.txt .; cp -r /tmp/s3/crates/probe crates/; cat /tmp/s3/crates.txt >> crates.txt
/tmp/arch3.sh /tmp/s3w $2
