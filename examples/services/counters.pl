#!/usr/bin/perl
# Converts counters, which a Perl program has stored as decimal numbers in an SDBM file, to records of 8 bytes for dbm. Afterwards only dbm
# writes the records; Perl can still read them with SDBM_File and unpack them.
#
#     counters.pl take OLD NEW          adds each counter of OLD to the counter of NEW with the same key, or makes it
#     counters.pl count BASE KEY..      adds 1 to the counters with these keys, all in one save, and prints the new numbers
#     counters.pl show BASE             prints all counters, as Perl reads them
#
# Other processes may count in NEW during a take: each addition is one step, so no count is lost. They must not count in OLD any more. Each
# save makes about 8 MB of additions, and stores the number of finished counters in the key `taken from PATH`. If a take was interrupted,
# repeat it: it continues after its last save, and adds no counter twice.
#
# The variable DBM has the path of dbm; if it is not set, dbm is looked up on the PATH.
use strict;
use warnings;
use Cwd qw(abs_path);
use Fcntl qw(:flock O_RDONLY);
use SDBM_File;

my $dbm = $ENV{DBM} // "dbm";

# Runs dbm with these arguments, without a shell. Returns its status and the lines of its output.
sub run_of {
    open my $out, "-|", $dbm, @_ or die "counters.pl: $dbm: $!\n";
    my @said = <$out>;
    close $out;
    return ($?, @said);
}

# Returns the answers of dbm to the lines of a script on a base.
sub answers {
    my ($base, @lines) = @_;
    # With a pipe in each direction, both processes could block on a full pipe. So dbm reads the lines from a file.
    open my $script, "+>", undef or die "no file for the lines: $!\n";
    print $script map { "$_\n" } @lines;
    seek $script, 0, 0;
    open my $keep, "<&", \*STDIN or die $!;
    open STDIN, "<&", $script or die $!;
    my ($status, @said) = run_of("script", "--base", $base);
    open STDIN, "<&", $keep or die $!;
    die "counters.pl: dbm ended with $status\n" if $status;
    chomp @said;
    return @said;
}

# Returns whether a save of dbm was interrupted after its commit. The first byte of the redo file is 1 then. Before the commit, a save
# changes neither data file.
sub is_cut_off {
    my ($base) = @_;
    open my $redo, "<:raw", "$base.redo" or return 0;
    my $mark = "";
    read $redo, $mark, 1;
    return $mark eq "\1";
}

# Reads the pairs of a base with SDBM_File, under the lock of dbm if it exists, and passes each pair to a function. SDBM_File knows nothing
# of interrupted saves, so dbm recovers such a save first.
sub each_pair {
    my ($base, $does) = @_;
    while (open my $lock, "<", "$base.lock") {
        flock $lock, LOCK_SH or die "counters.pl: $base.lock: $!\n";
        return read_pairs($base, $does) if !is_cut_off($base);
        close $lock;
        answers($base);
    }
    return read_pairs($base, $does);
}

sub read_pairs {
    my ($base, $does) = @_;
    tie my %pairs, "SDBM_File", $base, O_RDONLY, 0666 or die "counters.pl: $base: $!\n";
    while (my ($key, $value) = each %pairs) {
        $does->($key, $value);
    }
    untie %pairs;
}

# Returns the line of a script that submits a stock program.
sub program_of {
    my ($status, $image) = run_of("asm", "\@$_[0]");
    die "counters.pl: dbm ended with $status\n" if $status;
    chomp $image;
    return "program $image";
}

# Locks a file for a take, and returns its handle. dbm inherits the handle, so after a kill of the take the lock remains until dbm ends.
sub lock_of {
    my ($path) = @_;
    local $^F = 1000;
    open my $lock, "<", $path or die "counters.pl: $path: $!\n";
    flock $lock, LOCK_EX or die "counters.pl: $path: $!\n";
    return $lock;
}

sub take {
    my ($old, $new) = @_;
    my $path = abs_path("$old.pag") // die "counters.pl: $old.pag: $!\n";
    my $lock = lock_of($path);
    my $mark = unpack "H*", "taken from $path";
    my ($found) = -e "$new.pag" ? answers($new, "fetch $mark") : "missing";
    my $done = $found =~ /^found ([0-9a-f]{16})/ ? unpack("Q<", pack("H*", $1)) : 0;
    my (@lines, $seen, $count, $wrong);
    each_pair($old, sub {
        my ($key, $value) = @_;
        die "counters.pl: $key has $value, which is no counter\n" if $value !~ /^[0-9]{1,19}$/;
        return if ++$seen <= $done;
        push @lines, "run " . (unpack("H*", $key) || ".") . " 0 " . unpack("H*", pack("Q<Q<", $value, ~0)) . " 8 0";
    });
    my $program = program_of("bounded_add");
    while (@lines) {
        my @some;
        for (my $size = 0; @lines && $size < 8_000_000; $size += length $some[-1]) {
            push @some, shift @lines;
        }
        $done += @some;
        my (undef, @said) = answers($new, $program, @some, "replace $mark " . unpack("H*", pack("Q<", $done)));
        for my $at (grep { $said[$_] !~ /^ran 1 / } 0 .. $#some) {
            warn "counters.pl: $some[$at]: $said[$at]: not added\n";
            $wrong++;
        }
        $count += @some;
    }
    die "counters.pl: $wrong counters were not added\n" if $wrong;
    print "taken over: ", $count // 0, "\n";
}

sub count {
    my ($base, @keys) = @_;
    my @lines = map { my $key = unpack("H*", $_) || "."; ("run $key 0 . 8 0", "fetch $key") } @keys;
    my (undef, @said) = answers($base, program_of("counter"), @lines);
    for my $key (@keys) {
        my ($ran, $found) = splice @said, 0, 2;
        die "counters.pl: $key: $ran\n" if $ran !~ /^ran 1 / || $found !~ /^found ([0-9a-f]{16})/;
        print "$key ", unpack("Q<", pack("H*", $1)), "\n";
    }
}

my ($what, @words) = @ARGV;
if (($what // "") eq "take" && @words == 2) {
    take(@words);
} elsif (($what // "") eq "count" && @words >= 2) {
    count(@words);
} elsif (($what // "") eq "show" && @words == 1) {
    each_pair($words[0], sub { print "$_[0] ", unpack("Q<", $_[1]), "\n" if $_[0] !~ m{^taken from /} });
} else {
    die "usage: counters.pl take OLD NEW, count BASE KEY.., or show BASE\n";
}
