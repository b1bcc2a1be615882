# Prints messages as Perl's Protocol::OSC encodes them, one in hexadecimal on a line.
# Debian: apt-get install libprotocol-osc-perl; perl protocol-osc.pl
use Protocol::OSC;
my $osc = Protocol::OSC->new;
sub show { print unpack("H*", $osc->message(@_)), "\n" }
show("/go", "");
show("/a", "i", -2147483648);
show("/ab", "b", "");
show("/abc", "bsi", "\x01\x02\x03", "x", 65536);
show("/cue/7/label", "ss", "Tom's cue", "");
show("/mixer/ch/12", "isb", 100, "left", "\x00\xff\x10\x20\x30\x40\x50\x60\x70");
show("/fader", "f", 0.5);
