# info: a file of the reported maximum length can be installed, and a longer file can't.
ends 0 info new
largest=$(sed -n 's/^largest //p' said)
[ "$largest" -gt 0 ] || fail 'nothing goes into a disk that is nearly empty'
cp libl1.so padded.so
make_library l4 4
truncate -s "$((largest + 1))" libl4.so
"$program" install new libl4.so > answer && fail 'more than the greatest length went in'
truncate -s "$largest" libl4.so
"$program" install new libl4.so > answer || fail "the greatest length didn't go in: $(cat answer)"
