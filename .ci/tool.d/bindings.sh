# bindings: prints the binding of each symbol, and everything that is undefined or missing.
cat > upper.c <<'END'
extern int shared(void), below(void), lost(void), gone(void);
__attribute__((weak)) extern int nobody(void);
int upper(void) { return shared() + below() + lost() + gone() + nobody(); }
int shared(void) { return 1; }
END
cat > lower.c <<'END'
extern int lost(void);
int shared(void) { return 2; }
int below(void) { return shared() + lost(); }
END
echo 'extern int upper(void); int shared(void) { return 3; } void _start(void) { upper(); }' > top.c
link=(gcc -shared -fPIC -nostdlib -fno-stack-protector -Wl,--hash-style=sysv,--no-as-needed)
for name in nowhere elsewhere; do make_library "$name" 1; done
"${link[@]}" -Wl,-soname,liblower.so -o liblower.so lower.c libelsewhere.so
"${link[@]}" -Wl,-soname,libupper.so -o libupper.so upper.c liblower.so libnowhere.so
"${link[@]}" -Wl,-e,_start -o top top.c libupper.so libnowhere.so
"$program" format named 256 > answer
for name in libupper.so liblower.so; do "$program" install named $name > answer; done
ends 1 bindings named top 0x400000
cat > wanted <<'END'
found /program
needs libupper.so
needs libnowhere.so
missing libnowhere.so /program
found libupper.so
needs liblower.so
needs libnowhere.so
missing libnowhere.so libupper.so
found liblower.so
needs libelsewhere.so
missing libelsewhere.so liblower.so
end
END
cmp -s said wanted || fail "bindings told $(cat said)"
told ''
"$dot" said > answer || fail 'bindings-to-dot failed'
[ "$(grep -c -- '->' answer)" = 5 ] && [ "$(grep -c dashed answer)" = 3 ] || fail "bindings-to-dot told $(cat answer)"
for name in libnowhere.so libelsewhere.so; do "$program" install named $name > answer; done
ends 1 bindings named top 0x400000
told ''
sed 's/ 0x[0-9a-f]*//' said | grep '^object\|^needs\|^end' > answer
cat > wanted <<'END'
object /program
needs libupper.so
needs libnowhere.so
object libupper.so
needs liblower.so
needs libnowhere.so
object libnowhere.so
object liblower.so
needs libelsewhere.so
object libelsewhere.so
end
END
cmp -s answer wanted || fail "bindings told of objects $(cat answer)"
sed 's/ 0x[0-9a-f]*//' said | grep -v '^object\|^needs\|^end' | sort > answer
cat > wanted <<'END'
binds below liblower.so
binds shared /program
binds shared /program
binds upper libupper.so
undefined gone libupper.so
undefined lost liblower.so
undefined lost libupper.so
unresolved nobody
END
cmp -s answer wanted || fail "bindings told of symbols $(cat answer)"
value=$(nm -D liblower.so | sed -n 's/ T below$//p')
base=$(sed -n 's/^object 0x\([0-9a-f]*\) liblower.so$/\1/p' said)
[ "$(sed -n 's/^binds below 0x\(.*\) .*/\1/p' said)" = "$(printf %016x $((16#$base + 16#$value)))" ] ||
    fail "bindings told another address"
[ "$("$program" bind named top 0x400000 || true)" = "refused B5 Undefined libupper.so lost" ] ||
    [ "$("$program" bind named top 0x400000 || true)" = "refused B5 Undefined libupper.so gone" ] || fail 'bind is not refused so'
ends 1 bindings old pl2 0x400000
told 'rlibreg-tool: refused S5 Damaged'
ends 0 bindings old pl1 0x400000
[ "$(tail -n 1 said)" = end ] || fail 'bindings beside a damaged library end otherwise'
ends 1 bindings old pl1 0x400001
told 'rlibreg-tool: refused B2 BadBase'
ends 1 bindings old pl1.c 0x400000
told 'rlibreg-tool: refused B1 E2 BadMagic'
ends 1 bindings named top 0x7ffffffff000
told 'rlibreg-tool: refused B4 NoRoom'
ends 3 bindings old nothing 0x400000
told 'rlibreg-tool: cannot read nothing'
