# Names of files had the order of their type, in which the control file is the first. The first by its bytes is
# reported, and rather than a damage of the journal.
{
    cat create.aria
    inserts 1 3
} > three.aria
goes_on 'before other files' 0 '' three.aria run
printf X | dd of="$log" bs=1 seek=4000 conv=notrunc status=none
touch folder/x.MAI folder/_1.TMD
mkdir folder/a.TMD
ln -s nowhere folder/aria_log_control
stays 'the first of the files' 5 $'aria: not ours _1.TMD\n'
rm folder/_1.TMD
stays 'a folder as another file' 5 $'aria: not ours a.TMD\n'
rmdir folder/a.TMD
stays 'a link as another file' 5 $'aria: not ours aria_log_control\n'
rm folder/aria_log_control
stays 'an empty file as another file' 5 $'aria: not ours x.MAI\n'
rm folder/x.MAI
stays 'no other file' 5 $'aria: damaged log aria_log.00000001 page 0\n'
