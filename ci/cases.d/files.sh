# Makes the files that the cases of several files use: cartridges, inputs, and what is written of them.
data=ci/data
cp $data/two-frames.a26m one.a26m
cp $data/checkpoint-at-the-end.a26m end.a26m
cp $data/two-frames.rom rom
cp $data/two-frames.inputs inputs

# idle COUNT: so many inputs in which nothing is pressed.
idle() { printf '\xff\x3f\x00%.0s' $(seq "$1"); }

cat rom rom >twice.rom
head -c 4097 /dev/zero >4097.rom
head -c 2047 /dev/zero >2047.rom
head -c 4 inputs >four-bytes.inputs
printf '\xff\x3f\x00\xff\x3f\x04' >third-button.inputs
printf '\xff\x3f\x04\xff' >third-button-and-a-byte.inputs
: >no.inputs
idle 4096 >4096.inputs
idle 262144 >262144.inputs
truncate -s 16777217 too-long
# What a file of 'writes' holds before.
head -c 5000 /dev/zero >older

# Two frames of the small cartridge have one row of zeros each.
{ printf 'P6\n160 1\n255\n'; head -c 480 /dev/zero; } >one.ppm
cat one.ppm one.ppm >two.ppm
{ printf 'P6\n160 2\n255\n'; head -c 960 /dev/zero; } >two-rows.ppm

# The movie with a checkpoint after frame 1 and that with one after frame 2 give the one with both, the one without
# any, and the one of the cartridge twice as long, whose second half is its first.
{ head -c 12 one.a26m; printf '\x00\x02'; tail -c +15 one.a26m; tail -c 191 end.a26m; } >both.a26m
{ head -c 12 one.a26m; printf '\x00\x00'; tail -c +15 one.a26m | head -c 2241; } >no-checkpoint.a26m
{ head -c 6 end.a26m; printf '\x10\x00'; tail -c +9 end.a26m | head -c 6; cat twice.rom; tail -c +2063 end.a26m; } \
    >4096-bytes.a26m
