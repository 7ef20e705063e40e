# Boxes in Perl, beside handlers of %SIG, and a handler after the add-on was unloaded. Once ../unpacker.c is built, in the folder above:
#
#     gcc -shared -fPIC $(perl -MExtUtils::Embed -e ccopts) perl/unpack.c libunpacker.so -Wl,-rpath,'$ORIGIN' -o Unpacker.so
#     perl perl/host.pl unpack.elf
use strict;
use warnings;
use DynaLoader;

$| = 1;
my ($ENOUGH, $own) = (100, 0);
my $LONG = '0' x 4000 . '1a'; # a signal comes most likely while the thread is inside
$SIG{FPE} = sub { $own++ };
my $library = DynaLoader::dl_load_file('./Unpacker.so', 0) or die DynaLoader::dl_error();
DynaLoader::dl_install_xsub('Unpacker::boot', DynaLoader::dl_find_symbol($library, 'boot_Unpacker'))->();
Unpacker::open($ARGV[0]);

sub result {
    my $text = eval { Unpacker::unpack($_[0]) } // $@;
    chomp $text;
    return $text;
}

my ($signals, $wrong, $self) = (0, 0, $$);
$SIG{USR1} = sub { $signals++ };
print "$_: ", result($_), "\n" for '3a1b10c', '99999999a', '1o1k';
my $sender = fork // die "no child: $!";
if ($sender == 0) {
    select undef, undef, undef, 0.001 while getppid == $self && kill USR1 => $self;
    exit;
}
while ($signals < $ENOUGH) {
    $wrong += result($LONG) ne 'a';
}
kill TERM => $sender;
waitpid $sender, 0;
print "signals beside boxes: $wrong wrong\n";
DynaLoader::dl_unload_file($library) or die DynaLoader::dl_error();
kill FPE => $$; # by way of the library of boxes, which is still there
print "signals after an unload: $own\n";
