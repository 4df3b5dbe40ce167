# Tests of Boddurci.pm, in a new folder. BODDURCI_LIBRARY names the shared object.
use strict;
use warnings;
use Config ();
use Cwd qw(abs_path);
use Fcntl qw(:flock);
use File::Basename qw(dirname);
use File::Temp qw(tempdir);
use POSIX ();
use Test::More;

my $top;
BEGIN { $top = abs_path(dirname(abs_path(__FILE__)) . "/../..") }
use lib "$top/bindings/perl";
use Boddurci;

my $base = tempdir(CLEANUP => 1) . "/visits";

sub text_of {
    local (@ARGV, $/) = @_;
    return <>;
}

sub dies_with {
    my ($code, $text) = @_;
    ok(!eval { $code->(); 1 }, "dies") && like($@, $text);
}

dies_with(sub { tie my %none, "Boddurci", $base, "w" }, qr/No such file/);
tie my %db, "Boddurci", $base, "c";
$db{ab} = "x\0z";
$db{""} = "";
is($db{ab}, "x\0z");
is($db{no}, undef);
ok(exists $db{""} && !exists $db{no});
is_deeply([sort keys %db], ["", "ab"]);
is(delete $db{""}, "");
is(delete $db{""}, undef);
dies_with(sub { $db{big} = "x" x 1006 }, qr/too many bytes/);
dies_with(sub { $db{"\x{263a}"} = 1 }, qr/bytes/);
dies_with(sub { tie my %other, "Boddurci", $base, "w", no_wait => 1 }, qr/this thread has it open already/);

my $counter = tied(%db)->program(text_of("$top/examples/counter.s"));
is_deeply([tied(%db)->run($counter, "hits")], []);
is_deeply([tied(%db)->run($counter, "hits", blank => 8)], [1, 0]) for 1 .. 300;
is(unpack("Q<", $db{hits}), 300);
dies_with(sub { tied(%db)->program("mov r0, 0\nhop\n") }, qr/line 2: Mnemonic/);
dies_with(sub { tied(%db)->image("\0") }, qr/Decode\(Length\)/);
dies_with(sub { tied(%db)->run(7, "hits") }, qr/no program/);

# A program of another database is refused.
{
    tie my %other, "Boddurci", "$base.other", "c";
    my $program = tied(%other)->program(text_of("$top/examples/counter.s"));
    dies_with(sub { tied(%db)->run($program, "hits") }, qr/not accepted by this database/);
    untie %other;
}

# Names, a timeout of the wait for the lock, and a signal that ends the wait.
dies_with(sub { tie my %none, "Boddurci", "$base\0x", "c" }, qr/zero byte/);
dies_with(sub { tie my %none, "Boddurci", $_, "c" }, qr/the name is empty/) for "", ".", "..", "a/", "a/.", "a/..";
dies_with(sub { tie my %none, "Boddurci", $base, "w", timeout => -1 }, qr/a timeout is/);
dies_with(sub { tie my %none, "Boddurci", $base, "w", nothing => 1 }, qr/no option/);
dies_with(sub { tie my %other, "Boddurci", $base, "w" }, qr/this thread has it open already/);
{
    tie my %held, "Boddurci", "$base.held", "c";
    untie %held;
    open(my $lock, "<", "$base.held.lock") or die;
    flock($lock, LOCK_EX) or die;
    dies_with(sub { tie my %other, "Boddurci", "$base.held", "w", timeout => 0.1 }, qr/process \d+ \(.*\) uses the files/);
    for my $timeout (undef, 60) {
        local $SIG{ALRM} = sub { die "a signal" };
        alarm 1;
        dies_with(sub { tie my %other, "Boddurci", "$base.held", "w", timeout => $timeout }, qr/a signal/);
    }
}

# Calls in a child are refused, and the child saves nothing.
$db{child} = "parent";
tied(%db)->sync;
pipe(my $reading, my $writing) or die;
my $child = fork // die;
if (!$child) {
    my @refused = grep { !eval { $_->(); 1 } && $@ =~ /opened by another process/ }
        sub { my $value = $db{child} }, sub { $db{child} = "child" }, sub { delete $db{child} }, sub { my @keys = keys %db },
        sub { tied(%db)->sync }, sub { tied(%db)->run($counter, "hits") }, sub { tied(%db)->program("exit") };
    untie %db;
    syswrite $writing, scalar @refused;
    POSIX::_exit(0);
}
waitpid $child, 0;
sysread $reading, my $refused, 10;
is($refused, 7);
is(delete $db{child}, "parent");
open(my $kept, "<", "$base.writer") or die;
ok(!flock($kept, LOCK_EX | LOCK_NB), "the child has let no lock go");
close $kept;
$db{$_} = $_ x 3 for 1 .. 2000;
is(scalar(keys %db), 2002);
untie %db;

tie %db, "Boddurci", $base;
is($db{1999}, "1999" x 3);
dies_with(sub { $db{a} = 1 }, qr/only read/);
untie %db;

# A child that ends as a script does must not overwrite a later save of its parent.
my $script = 'tie %db, "Boddurci", shift, "c"; $db{a} = "old"; pipe $r, $w; if (!fork) { close $w; <$r>; exit } $db{a} = "new"; untie %db; close $w; wait';
is(system($^X, "-I$top/bindings/perl", "-MBoddurci", "-e", $script, "$base.ends"), 0);
tie %db, "Boddurci", "$base.ends", "w", no_wait => 1;
is($db{a}, "new");
untie %db;

# Files of small pages are not opened as wide, except with any_size.
{
    tie my %small, "Boddurci", "$base.small", "c";
    $small{key} = "value";
    untie %small;
    truncate "$base.small.pag", 8192 or die;
    dies_with(sub { tie my %wide, "Boddurci", "$base.small", "w", wide => 1 }, qr/look small/);
    ok(eval { tie my %wide, "Boddurci", "$base.small", "r", wide => 1, any_size => 1; 1 } || $@ !~ /look small/);
}

# A limit on the length of .pag. The second key is refused, since it would need the first MiB. Nothing changes, in memory or on the disk.
{
    my ($first, $second, $value) = ("far180463", "far413", "x" x 900);
    dies_with(sub { tie my %none, "Boddurci", "$base.limit", "c", limit => $_ }, qr/a limit is/) for -1, "x", "", "1\n", "1" x 16;
    ok(!-e "$base.limit.lock");
    tie my %limited, "Boddurci", "$base.limit", "c", limit => 256 << 10;
    $limited{$first} = $value;
    tied(%limited)->sync;
    my $before = text_of("$base.limit.pag");
    dies_with(sub { $limited{$second} = $value }, qr/too long: BASE\.pag would exceed the limit/);
    my $program = tied(%limited)->program(text_of("$top/examples/counter.s"));
    dies_with(sub { tied(%limited)->run($program, $second, blank => 900) }, qr/too long/);
    is_deeply({%limited}, { $first => $value });
    untie %limited;
    is(text_of("$base.limit.pag"), $before);
    tie %limited, "Boddurci", "$base.limit", "w", limit => 1 << 20;
    $limited{$second} = $value;
    is(scalar(keys %limited), 2);
    untie %limited;
}

# An object whose string differs each time is stored as one of its strings, and no call reads past that string.
{
    package Changing;
    my @strings;
    use overload '""' => sub { my $next = shift @strings; push @strings, $next; $next }, fallback => 1;
    sub new { my ($class, @all) = @_; @strings = @all; return bless {}, $class }
}
{
    my ($short, $long) = ("k", "k" x 700);
    tie my %strings, "Boddurci", "$base.strings", "c";
    my $lease = tied(%strings)->program(text_of("$top/examples/lease.s"));
    for my $order ([$short, $long], [$long, $short]) {
        my %is_known = map { $_ => 1 } @$order;
        my $changing = Changing->new(@$order);
        $strings{value} = $changing;
        ok($is_known{ $strings{value} }, "the value is one of its strings");
        delete $strings{value};
        $strings{$changing} = "x";
        is_deeply([grep { !$is_known{$_} } keys %strings], [], "the key is one of its strings");
        my $found = $strings{$changing};
        ok(!defined $found || $found eq "x");
        delete $strings{$changing} for 1 .. 2;
        is_deeply([keys %strings], []);
        $changing = Changing->new(pack("Q<2", 7, 60), "");
        tied(%strings)->run($lease, "lease", arg => $changing, blank => 16, now => 1000);
        is(length($strings{lease} // "x" x 16), 16);
        delete $strings{lease};
    }
    untie %strings;
}

# A hash is saved if it is destroyed without an untie, or still tied when the program ends.
for my $kind ("my", "our") {
    my $script = qq{tie $kind \%db, "Boddurci", shift, "c"; \$db{$kind} = "kept"; \$SIG{__WARN__} = sub { print STDOUT \@_ }};
    is(qx{$^X -I$top/bindings/perl -MBoddurci -e '$script' $base.end 2>&1}, "");
    tie my %kept, "Boddurci", "$base.end", "w", no_wait => 1;
    is($kept{$kind}, "kept");
    untie %kept;
}

# If a signal handler dies while an object is destroyed, the next tie saves and closes the base.
{
    no warnings "redefine";
    local $SIG{__WARN__} = sub { };
    {
        local *Boddurci::DESTROY = sub { die "a signal" };
        tie my %left, "Boddurci", "$base.left", "c";
        $left{a} = "left";
    }
    tie my %again, "Boddurci", "$base.left", "w", no_wait => 1;
    is($again{a}, "left");
    untie %again;
}

# A thread of Perl does not close the hashes that its parent has tied.
SKIP: {
    my $script = q{
        use threads;
        use Boddurci;
        tie my %db, "Boddurci", $ARGV[0], "c";
        $db{a} = "1";
        threads->create(sub { tie my %own, "Boddurci", "$ARGV[0].own", "c"; $own{a} = "own" })->join;
        $db{a} .= "2";
        print $db{a};
    };
    skip "no threads", 2 unless $Config::Config{useithreads};
    is(qx{$^X -I$top/bindings/perl -e '$script' $base.threads 2>&1}, "12");
    is(join(",", map { tie my %kept, "Boddurci", "$base.threads$_", "r"; $kept{a} } "", ".own"), "12,own");
}

# If a destroyed hash cannot be saved, a warning names the base and the fault, and the locks are free afterwards.
{
    my @warned;
    local $SIG{__WARN__} = sub { push @warned, @_ };
    {
        tie my %lost, "Boddurci", "$base.lost", "c";
        $lost{a} = "1";
        tied(%lost)->sync;
        $lost{a} = "2";
        rename "$base.lost.lock", "$base.lost.away" or die;
    }
    is(scalar @warned, 1);
    like($warned[0], qr/^\Q$base\E\.lost: the changes that were not saved are lost: BASE\.lock is another file/);
    rename "$base.lost.away", "$base.lost.lock" or die;
    tie my %lost, "Boddurci", "$base.lost", "w", no_wait => 1;
    is($lost{a}, "1", "the lock is free");
    untie %lost;
    # The name is escaped, since the system allows any bytes in it.
    for (["\e[31m\n\xe2\x80\xae\\\xc3\xa9", "\\x{1b}[31m\\x{a}\\x{202e}\\x{5c}\xc3\xa9"], ["\xff", "\\x{ff}"]) {
        my ($name, $shown) = @$_;
        @warned = ();
        {
            tie my %strange, "Boddurci", "$base.$name", "c";
            $strange{a} = "1";
            rename "$base.$name.lock", "$base.strange" or die;
        }
        like($warned[0], qr/^\Q$base.$shown\E: the changes that were not saved are lost/);
    }
    my $script = 'tie %db, "Boddurci", shift, "w"; $db{a} = "3"; rename "$ARGV[0].lock", "$ARGV[0].away"';
    like(qx{$^X -I$top/bindings/perl -MBoddurci -e '$script' $base.lost $base.lost 2>&1}, qr/\.lost: the changes that were not saved are lost/);
    rename "$base.lost.away", "$base.lost.lock" or die;
}

# If a signal handler dies just after the base is open, no lock stays. The signal comes during the wait for the lock, and the system
# continues the wait.
for my $mode ("w", "n") {
    tie my %held, "Boddurci", "$base.signal", "c";
    $held{a} = "1";
    untie %held;
    my $action = POSIX::SigAction->new(sub { die "a signal" }, POSIX::SigSet->new, POSIX::SA_RESTART());
    $action->safe(1);
    POSIX::sigaction(POSIX::SIGUSR1(), $action) or die;
    pipe(my $has_lock, my $locks) or die;
    my $holder = fork // die;
    if (!$holder) {
        open(my $lock, "<", "$base.signal.lock") or die;
        flock($lock, LOCK_EX) or die;
        syswrite $locks, "x";
        select undef, undef, undef, 0.8;
        kill USR1 => getppid;
        select undef, undef, undef, 0.4;
        POSIX::_exit(0);
    }
    sysread $has_lock, my $byte, 1;
    dies_with(sub { tie my %db, "Boddurci", "$base.signal", $mode }, qr/a signal/);
    waitpid $holder, 0;
    open(my $lock, "<", "$base.signal.lock") or die;
    ok(flock($lock, LOCK_EX | LOCK_NB), "the lock is free after the handler");
    close $lock;
    tie %held, "Boddurci", "$base.signal", "w", no_wait => 1;
    is($held{a}, "1", "nothing was changed");
    untie %held;
}

# Tests which library is loaded: the one that BODDURCI_LIBRARY names by its absolute path, if the environment is trusted.
{
    my $folder = tempdir(CLEANUP => 1);
    chmod 0755, $folder;
    system("cp", "$top/bindings/perl/Boddurci.pm", "$folder/Boddurci.pm") == 0 or die;
    system("cp", $ENV{BODDURCI_LIBRARY} || "$top/out/boddurci/libboddurci.so", "$folder/libboddurci.so") == 0 or die;
    open(my $other, ">", "$folder/other.so") or die;
    print $other "no library";
    close $other;
    local $ENV{BODDURCI_LIBRARY} = "$folder/other.so";
    my $says = sub {
        my ($option, $before) = @_;
        return scalar qx{cd $folder && $^X $option -e 'BEGIN { $before } use lib "$folder"; use Boddurci; print "loaded"' 2>&1};
    };
    like($says->("", ""), qr/other\.so cannot be loaded/);
    is($says->("-T", ""), "loaded");
    is($says->("", q{$) = "65534 65534"}), "loaded", "of another group") if $> == 0;
    $ENV{BODDURCI_LIBRARY} = "./libboddurci.so";
    like($says->("", ""), qr/give the absolute path/);
    # A library in the working folder is not loaded.
    delete $ENV{BODDURCI_LIBRARY};
    mkdir "$folder/module" or die;
    rename "$folder/Boddurci.pm", "$folder/module/Boddurci.pm" or die;
    my $trace = qx{cd $folder && $^X -e 'use lib "$folder/module"; use Boddurci; print "loaded"' 2>&1};
    like($trace, qr/^(loaded\z|libboddurci\.so\.2 cannot be loaded)/);
}

# The stock programs by name, and their packages.
{
    tie my %stock, "Boddurci", "$base.stock", "c";
    my $db = tied %stock;
    my @names = qw(counter bounded_add bounded_counter compare_and_set sequence lease fenced_lease rate_limit semaphore token_bucket);
    is($db->stock($_)->{number}, $db->program(text_of("$top/examples/$_.s"))->{number}, $_) for @names;
    is_deeply([$db->run($db->stock("lease"), "door", arg => pack("Q<2", 7, 30), blank => 16, now => 1000)], [1, 1030]);
    delete $stock{door};
    for my $name ("", undef, "Lease", "lease\0", "\0lease", "\@lease") {
        for my $each (@names) {
            dies_with(sub { $db->stock($name) }, qr/\b$each\b/);
        }
    }
    my $most = "18446744073709551615";

    # Counters.
    my $hits = $db->counter("hits");
    is($hits->get, 0);
    ok(!exists $stock{hits});
    is_deeply([$hits->add(5), $hits->add(-3), $hits->add, $hits->add(0), $hits->get], [5, 2, 3, 3, 3]);
    is($stock{hits}, pack("Q<", 3));
    $stock{hits} = pack("Q<", $most - 1) . "tail";
    is($hits->add(1), $most);
    dies_with(sub { $hits->add(1) }, qr/^hits: $most plus 1 is outside 0 to $most at/);
    is($hits->add("-9223372036854775808"), "9223372036854775807");
    is($hits->add("9223372036854775807"), $most - 1);
    is($stock{hits}, pack("Q<", $most - 1) . "tail");
    my $seats = $db->counter("seats", floor => 2, ceiling => 10);
    dies_with(sub { $seats->add(1) }, qr/^seats: 0 plus 1 is outside 2 to 10 at/);
    ok(!exists $stock{seats});
    is_deeply([$seats->add(2), $seats->add(8)], [2, 10]);
    for my $amount (1, -9, "9223372036854775807", "-9223372036854775808") {
        dies_with(sub { $seats->add($amount) }, qr/^seats: 10 plus $amount is outside 2 to 10 at/);
        is($seats->get, 10);
    }

    # Leases: two owners, renewals, the end, and the release.
    my $door = $db->lease("door");
    is($door->acquire(7, 30, now => 1000), 1030);
    is($stock{door}, pack("Q<2", 7, 1030));
    is($door->acquire(8, 30, now => 1029), undef);
    is($door->acquire(7, 60, now => 1010), 1070);
    is($door->acquire(7, 5, now => 1020), 1025);
    is($door->acquire(8, 30, now => 1024), undef);
    is($door->acquire(8, 30, now => 1025), 1055);
    ok(!$door->release(7, now => 1026));
    is($stock{door}, pack("Q<2", 8, 1055));
    ok($door->release(8, now => 1026));
    ok(!exists $stock{door});
    ok(!$door->release(8, now => 1026));
    is($door->acquire(7, 1, now => 2000), 2001);
    ok(!$door->release(7, now => 2001), "a lease that has ended is nobody's");
    is($door->acquire(0, $most, now => 5), $most);
    is($door->acquire($most, 1, now => $most), $most);
    delete $stock{door};
    my $about = time + 30;
    my $end = $door->acquire(7, 30);
    ok($about - 1 <= $end && $end <= $about + 20, "the clock");
    ok($door->release(7));

    # Leases with tokens.
    my $gate = $db->fenced_lease("gate");
    ok(!$gate->release(7, now => 1));
    ok(!exists $stock{gate});
    is_deeply([$gate->acquire(7, 30, now => 1000)], [1030, 1]);
    is_deeply([$gate->acquire(7, 5, now => 1010)], [1015, 1]);
    is_deeply([$gate->acquire(8, 30, now => 1014)], []);
    is_deeply([$gate->acquire(8, 30, now => 1015)], [1045, 2]);
    ok(!$gate->release(7, now => 1016));
    ok($gate->release(8, now => 1016));
    is($stock{gate}, pack("Q<3", 8, 0, 2));
    is_deeply([$gate->acquire(8, $most, now => 1016)], [$most, 3]);
    is(scalar $gate->acquire(8, 60, now => 1016), 1076);
    is(scalar $gate->acquire(7, 60, now => 1016), undef);
    is_deeply([$gate->acquire(8, $most, now => 1016)], [$most, 3]);
    $stock{gate} = pack("Q<3", 8, 1020, $most);
    is_deeply([$gate->acquire(8, 5, now => 1019)], [1024, $most]);
    dies_with(sub { $gate->acquire(8, 5, now => 1024) }, qr/^all tokens of gate are used up/);

    # Semaphores and limits.
    my $pool = $db->semaphore("pool", 2);
    ok(!$pool->release);
    is_deeply([map { $pool->acquire ? 1 : 0 } 1 .. 4], [1, 1, 0, 0]);
    is_deeply([map { $pool->release ? 1 : 0 } 1 .. 3], [1, 1, 0]);
    my $calls = $db->rate_limit("ann", 3, 10);
    is_deeply([map { $calls->admit(now => $_) ? 1 : 0 } 100, 100, 101, 102, 109], [1, 1, 1, 0, 0]);
    is_deeply([map { $calls->admit(now => $_) ? 1 : 0 } 110, 119, 119, 119, 120], [1, 1, 1, 0, 1]);
    my $once = $db->rate_limit("bob", 1, 3600);
    is_deeply([map { $once->admit ? 1 : 0 } 1, 2], [1, 0]);

    # Records of other lengths.
    my @each = (
        [8, sub { $db->counter("it")->get }],
        [8, sub { $db->counter("it")->add(1) }],
        [8, sub { $db->counter("it")->add(-1) }],
        [16, sub { $db->lease("it")->acquire(7, 30) }],
        [16, sub { $db->lease("it")->release(7) }],
        [24, sub { $db->fenced_lease("it")->acquire(7, 30) }],
        [24, sub { $db->fenced_lease("it")->release(7) }],
        [8, sub { $db->semaphore("it", 1)->acquire }],
        [8, sub { $db->semaphore("it", 1)->release }],
        [16, sub { $db->rate_limit("it", 1, 60)->admit }],
    );
    for (@each) {
        my ($length, $call) = @$_;
        for my $short (0, 1, $length - 1) {
            $stock{it} = "\1" x $short;
            dies_with($call, qr/^the record of it is too short: [a-z_]+ takes $length bytes or more at \Q$0\E line/);
            is($stock{it}, "\1" x $short);
        }
        $stock{it} = pack("Q<3", 1, 0, 0) . "tail";
        $call->();
        like($stock{it} // "tail", qr/tail\z/);
    }
    delete $stock{it};

    # Arguments that are out of range, or are not numbers.
    my %wants = (
        owner   => [0, sub { $door->acquire($_[0], 1, now => 1) }, sub { $door->release($_[0]) }, sub { $gate->acquire($_[0], 1) }],
        seconds => [1, sub { $door->acquire(7, $_[0]) }, sub { $gate->acquire(7, $_[0]) }, sub { $db->rate_limit("it", 1, $_[0]) }],
        size    => [1, sub { $db->semaphore("it", $_[0]) }],
        count   => [1, sub { $db->rate_limit("it", $_[0], 1) }],
    );
    for my $name (sort keys %wants) {
        my ($least, @calls) = @{ $wants{$name} };
        for my $call (@calls) {
            for my $number ($least - 1, "18446744073709551616", "9" x 30, 1.5, "1e3", "x", "1\n", "", undef) {
                dies_with(sub { $call->($number) }, qr/^$name is a whole number from $least to $most at \Q$0\E line/);
            }
        }
    }
    for my $number (-1, "18446744073709551616", 1.5, "x", "") {
        dies_with(sub { $door->acquire(7, 1, now => $number) }, qr/^now is a whole number/);
        dies_with(sub { $calls->admit(now => $number) }, qr/^now is a whole number/);
        dies_with(sub { $db->counter("it", floor => $number) }, qr/^floor is a whole number/);
        dies_with(sub { $db->counter("it", ceiling => $number) }, qr/^ceiling is a whole number/);
    }
    dies_with(sub { $db->counter("it", floor => 3, ceiling => 2) }, qr/^ceiling is a whole number from 3/);
    for my $amount ("9223372036854775808", "-9223372036854775809", 1.5, "x", "--1", "", "1\n") {
        dies_with(sub { $db->counter("it")->add($amount) }, qr/^an amount is a whole number from -9223372036854775808 to 9223372036854775807/);
    }
    for my $call (
        sub { $db->counter("it", top => 1) }, sub { $door->acquire(7, 1, later => 1) },
        sub { $door->release(7, later => 1) }, sub { $calls->admit(later => 1) },
    ) {
        dies_with($call, qr/^no option (top|later) at/);
    }
    dies_with(sub { $db->counter("\x{263a}") }, qr/bytes/);
    ok(!exists $stock{it});
    untie %stock;
    dies_with($_, qr/the database is closed at \Q$0\E/)
        for sub { $hits->get }, sub { $hits->add(1) }, sub { $door->release(7) }, sub { $db->stock("lease") };

    # A database that is open for reading only; and numbers with other texts.
    tie my %read, "Boddurci", "$base.stock";
    is(tied(%read)->counter("seats")->get, 10);
    dies_with(sub { tied(%read)->counter("seats")->add(1) }, qr/only read/);
    untie %read;
    tie %stock, "Boddurci", "$base.stock", "w";
    is(tied(%stock)->counter("new")->add("+007"), 7);
    is(tied(%stock)->counter("new")->add("-0"), 7);
    is(tied(%stock)->lease("new lease")->acquire("0" x 30 . "7", "010", now => "0"), 10);
    untie %stock;
}

# A save does not overwrite data that Perl's own SDBM_File stores while a hash is tied, unless the save insists.
SKIP: {
    skip "no SDBM_File", 1 unless eval { require SDBM_File; require Fcntl; 1 };
    my $beside = "$base.beside";
    tie my %db, "Boddurci", $beside, "c" or die;
    $db{a} = "1";
    tied(%db)->sync;
    select undef, undef, undef, 0.05;
    tie my %other, "SDBM_File", $beside, Fcntl::O_RDWR(), 0666 or die;
    $other{$_} = $_ for 1 .. 2000;
    untie %other;
    $db{b} = "2";
    for my $call (sub { tied(%db)->sync }, sub { tied(%db)->sync(insist => 0) }, sub { tied(%db)->close }) {
        dies_with($call, qr/^another program has changed the files: BASE\.pag has \d+ bytes, and had 1024\. .* at \Q$0\E line/);
        isa_ok($@, "Boddurci::Changed");
    }
    dies_with(sub { tied(%db)->sync(insists => 1) }, qr/^no option insists at/);
    tie %other, "SDBM_File", $beside, Fcntl::O_RDONLY(), 0666 or die;
    is(scalar(keys %other), 2001);
    untie %other;
    is_deeply({%db}, { a => 1, b => 2 });
    tied(%db)->sync(insist => 1);
    tie %other, "SDBM_File", $beside, Fcntl::O_RDONLY(), 0666 or die;
    is_deeply({%other}, { a => 1, b => 2 });
    untie %other;
    untie %db;
}

# Shared databases. Each call is a separate step, so there is nothing to save, and children may use the hash.
{
    my $shared = "$base.shared";
    dies_with(sub { tie my %none, "Boddurci", $shared, "w", shared => 1 }, qr/No such file/);
    dies_with(sub { tie my %none, "Boddurci", $shared, "n", shared => 1 }, qr/the mode r, w or c, and no limit/);
    dies_with(sub { tie my %none, "Boddurci", $shared, "c", shared => 1, limit => 1 << 20 }, qr/the mode r, w or c, and no limit/);
    tie my %one, "Boddurci", $shared, "c", shared => 1;
    isa_ok(tied(%one), "Boddurci::Shared");
    ok(!exists $one{a} && !%one && !keys %one);
    $one{a} = "x\0z";
    tie my %other, "Boddurci", $shared, "w", shared => 1, timeout => 0.3;
    is($other{a}, "x\0z");
    $other{b} = "y" x 900;
    is_deeply({%one}, { a => "x\0z", b => "y" x 900 });
    is(delete $one{b}, "y" x 900);
    is(delete $other{b}, undef);
    is(join(",", keys %other), "a");
    dies_with(sub { $one{big} = "x" x 1006 }, qr/too many bytes/);
    tied(%one)->sync;
    my $program = tied(%one)->program(text_of("$top/examples/counter.s"));
    is_deeply([tied(%one)->run($program, "hits")], []);
    is_deeply([tied(%one)->run($program, "hits", blank => 8)], [1, 0]);
    dies_with(sub { tied(%other)->run($program, "hits") }, qr/not accepted by this database/);
    dies_with(sub { tied(%one)->program("mov r0, 0\nhop\n") }, qr/line 2: Mnemonic/);
    dies_with(sub { tied(%one)->stock($_) }, qr/the names are/) for "nothing", "counter\0";
    my $lease = tied(%one)->lease("door");
    ok($lease->acquire(7, 30) && !defined $lease->acquire(8, 30) && $lease->release(7) && !$lease->release(7));
    # The library reads the clock, under the locks.
    my $end = tied(%one)->lease("timed")->acquire(7, 30);
    ok(abs($end - 30 - time) < 20);
    ok(tied(%one)->rate_limit("limited", 1, 30)->admit && !tied(%one)->rate_limit("limited", 1, 30)->admit);
    ok(abs(unpack("Q<", $one{limited}) - time) < 20);
    is(tied(%one)->lease("own")->acquire(7, 30, now => 5), 35);
    is_deeply([tied(%one)->fenced_lease("fenced")->acquire(7, 30, now => 5)], [35, 1]);
    delete @one{"timed", "limited", "own", "fenced"};
    my $hits = tied(%one)->counter("hits");
    my @children = map { my $child = fork // die; $child || do { $hits->add for 1 .. 20; POSIX::_exit(0) } } 1 .. 3;
    $hits->add for 1 .. 20;
    waitpid($_, 0), is($?, 0) for @children;
    is(tied(%other)->counter("hits")->get, 81);
    is(tied(%other)->counter("hits")->add(-80), 1);
    dies_with(sub { tied(%one)->counter("hits", ceiling => 7)->add(7) }, qr/hits: 1 plus 7 is outside 0 to 7/);
    $one{short} = "1234567";
    dies_with(sub { tied(%other)->counter("short")->add }, qr/the record of short is too short/);
    is($one{short}, "1234567");
    delete $one{short};

    # While another process has the whole database open, a change waits, runs signal handlers meanwhile, and dies at the timeout.
    pipe(my $has_it, my $says) or die;
    my $owner = fork // die;
    if (!$owner) {
        tie my %own, "Boddurci", $shared, "w";
        $own{a} = "2";
        tied(%own)->sync;
        syswrite $says, "x";
        sleep 60;
        POSIX::_exit(0);
    }
    sysread $has_it, my $byte, 1;
    dies_with(sub { $other{a} = "3" }, qr/process $owner \(.*\) has the database open to be written/);
    is($other{a}, "2");
    {
        local $SIG{ALRM} = sub { die "a signal" };
        alarm 1;
        dies_with(sub { $one{a} = "3" }, qr/a signal/);
    }
    kill KILL => $owner;
    waitpid $owner, 0;
    $one{a} = "3";
    tie my %reads, "Boddurci", $shared, "r", shared => 1;
    is($reads{a}, "3");
    dies_with(sub { $reads{a} = "4" }, qr/only read/);
    my $db = tied %one;
    untie %one;
    dies_with(sub { $db->FETCH("a") }, qr/the database is closed/);
    dies_with(sub { my @keys = $db->_keys }, qr/the database is closed/);
    %other = ();
    is_deeply([keys %reads], []);

    # Without flushes, others see each change, and the file has it after a flush.
    my $later = "$base.later";
    dies_with(sub { tie my %none, "Boddurci", $later, "c", flush => 0 }, qr/only a shared database/);
    tie my %later, "Boddurci", $later, "c", shared => 1, flush => 0;
    tie my %now, "Boddurci", $later, "c", shared => 1, flush => 1;
    for (1 .. 20) {
        $later{a} = $_;
        is(tied(%later)->counter("hits")->add, $_);
        is(join(",", $now{a}, sort keys %later), "$_,a,hits");
    }
    $later{b} = "value of b";
    tied(%later)->flush;
    tied(%now)->flush;
    like(text_of("$later.pag"), qr/value of b/);
    $later{b} = "the last value";
    untie %later;
    like(text_of("$later.pag"), qr/the last value/);

    # The bytes of the files are not a database.
    open(my $pages, ">", "$shared.bad.pag") or die;
    print $pages "x" x 1024;
    close $pages;
    tie my %bad, "Boddurci", "$shared.bad", "w", shared => 1;
    dies_with(sub { my $value = $bad{a} }, qr/Page\(0/);
    untie %bad;

    # A shared database that is open when the program ends, and a name that is resolved once.
    my $script = 'tie our %db, "Boddurci", "shared", "c", shared => 1; chdir "/"; $db{a} = "b"; print keys %db';
    my ($folder, $file) = $shared =~ m{^(.*)/([^/]*)$};
    is(qx{cd $folder && $^X -I$top/bindings/perl -MBoddurci -e '$script' 2>&1}, "a");
}

# The POD has no errors.
SKIP: {
    skip "no Pod::Checker", 1 unless eval { require Pod::Checker; 1 };
    my $checker = Pod::Checker->new(-warnings => 2);
    open(my $said, ">", \my $text) or die;
    $checker->parse_from_file("$top/bindings/perl/Boddurci.pm", $said);
    is($checker->num_errors + $checker->num_warnings, 0, $text // "");
}

SKIP: {
    skip "no SDBM_File", 1 unless eval { require SDBM_File; require Fcntl; 1 };
    tie my %other, "SDBM_File", $base, Fcntl::O_RDONLY(), 0666 or die;
    is_deeply([map { $other{$_} } 1 .. 2000], [map { $_ x 3 } 1 .. 2000]);
}
done_testing;
