# The programs and scripts of the rows that whole.sh and against.sh have both, written into the folder at hand. Read by
# them, as `. rows.sh`.
awk 'BEGIN { print "program bench device valve : out process p : periodic frame 360441 begin"
    for (i = 0; i < 32767; i++) print "put valve 1"
    print "end p end bench" }' > puts
echo 'program bench process p : periodic frame 1000000000 begin end p end bench' > idle
echo 'program bench process p : periodic frame 1000000000 var x : int begin for i : 1 .. 1000 do for j : 1 .. 10000 do x := i + j end for end for end p end bench' > loops
echo 'program bench device valve : out process p : periodic frame 26 begin put valve 1 put valve 2 end p end bench' > events
awk 'BEGIN { print "program bench device valve : out"
    for (i = 0; i < 64; i++) printf "process p%d : periodic frame 960 begin put valve %d end p%d\n", i, i, i
    print "end bench" }' > processes
echo 'program bench device g : in process p : periodic frame 1000000000 begin end p end bench' > reader
awk 'BEGIN { for (i = 0; i < 999999; i++) printf "%d set g 1\n", i; print "end 1000000" }' > lines
echo 'program bench device g : in process p : periodic frame 60 var x : int begin get g x end p end bench' > sampler
awk 'BEGIN { for (i = 0; i < 100000; i++) printf "%d set g %d\n", int(i * 24000 / 100000), i % 1000; print "end 24000" }' > often
echo 'program bench device valve : out process p : periodic frame 30 begin put valve 1 end p process q : periodic frame 52 begin put valve 2 end q end bench' > two
