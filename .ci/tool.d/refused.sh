# Requests that are refused.
ends 1 file old libnone.so
told 'rlibreg-tool: refused C3 NotInstalled'
[ ! -s said ] || fail 'a missing name wrote something'
cp "$samples/old-one.disk" first
for form in 'info first' 'digest first' 'replace first small.so' "remove first $small" 'update first' 'executable first pl1 0x0' 'bindings first pl1 0x0'; do
    ends 1 $form
    told 'rlibreg-tool: refused S12 OldFormat'
    [ ! -s said ] || fail "$form wrote something"
done
cmp -s first "$samples/old-one.disk" || fail 'a disk of version 1 was written to'
head -c 100 new > short
ends 1 dump short
told 'rlibreg-tool: refused S6 BadGeometry'
[ "$(cat said)" = cut ] || fail 'a dump of no disk is not cut'
ends 1 remove short "$small"
told 'rlibreg-tool: refused S6 BadGeometry'
for form in 'info nothing' 'remove nothing a' 'update nothing' 'replace nothing small.so' 'replace old nothing'; do
    ends 3 $form
    told 'rlibreg-tool: cannot read nothing'
done
ends 3 replace nodisk nofile
told 'rlibreg-tool: cannot read nofile'
usage='usage: rlibreg-tool info|check|digest|dump|update DISK, dump DISK commit, file|remove DISK NAME, replace DISK FILE'
usage="$usage or executable|bindings DISK PROGRAM BASE"
for form in 'file old' 'digest' 'digest old a' 'update' 'update old a' 'dump old a' 'dump old commit a' 'replace old' 'remove old' 'remove old a b' 'install old small.so' '' \
    'executable old pl1' 'executable old pl1 400000' 'bindings old pl1' 'bindings old pl1 400000'; do
    ends 2 $form
    told "$usage"
done
