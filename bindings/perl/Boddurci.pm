# Boddurci for Perl: a key-value store in the two files of an sdbm database. Small verified programs run on its records.
#
#     use Boddurci;
#     tie my %db, "Boddurci", "visits", "c" or die;
#     $db{ab} = "xyz";
#     tied(%db)->counter("hits")->add(5);
#     my $until = tied(%db)->lease("door")->acquire(7, 30);
#     my $counter = tied(%db)->program(do { local (@ARGV, $/) = "examples/counter.s"; <> });
#     my ($end, $word) = tied(%db)->run($counter, "runs", blank => 8);
#     untie %db;
#
# The methods `counter`, `lease`, `fenced_lease`, `semaphore` and `rate_limit` run stock programs; the POD below the code describes them.
#
# Every failed call dies. Keys and values are bytes. A tied database is in memory, and `sync` and `untie` write its files. After a crash
# during `sync` or `untie`, the files have either the old database or the new one.
#
# Only one process at a time can have a database tied for writing ("w", "c" and "n"); other processes wait for it. A process that only reads
# ("r") does not wait, and reads the last save. If a program that ignores the locks, such as Perl's SDBM_File, has changed the files
# meanwhile, `sync` and `untie` die with a Boddurci::Changed and write nothing. tied(%db)->sync(insist => 1) overwrites the files.
#
# A tied hash that is destroyed without `untie`, or is still tied when the program ends, is saved then. If the save fails, a warning names
# the base and the fault. The locks are released in any case. If a signal handler dies during `tie`, the locks are released. In a child of
# the process that tied the hash, every call except `untie` dies, and nothing is saved.
#
# Options follow the mode:
#
#   wide => 1            pages have 8,192 bytes
#   any_size => 1        with wide: opens files even if they look like those of small pages
#   unsigned_keys => 1   keys are hashed as unsigned bytes
#   timeout => SECONDS   the longest wait for a process that has the database tied for writing; without it the wait has no limit
#   no_wait => 1         tries once
#   limit => BYTES       the greatest length of BASE.pag; the default, 1 GiB, is also the maximum
#   shared => 1          several processes change the database at the same time
#   flush => 0           with shared: a change returns before it is durable
#
# After the timeout, `tie` dies and names the other process. A change that would make BASE.pag longer than the limit dies and is not made;
# existing pages stay. Set a limit if untrusted users choose your keys, since they can make BASE.pag as long as the limit.
#
# With `shared`, the hash holds no lock and no pages between calls. Each fetch, store and `run` is one durable step among all processes that
# share the database. With `flush => 0` as well, a change is durable only after the next tied(%db)->flush of any process, or `untie`; a crash
# of the machine before may lose it and all later changes, and a killed process loses none. `sync` and `flush` are the same. `keys` and `each` see the keys that the database has when the iteration begins. `delete` is
# two steps: a fetch of the value that it returns, and the deletion. `timeout` and `no_wait` apply to each call, and neither `limit` nor the
# mode "n" is possible. A forked child may use the hash.
#
# The module needs FFI::Platypus (Debian: libffi-platypus-perl) and the shared object that `./dbm --build-library` makes. If
# BODDURCI_LIBRARY is set, it is the absolute path of the file to load. Otherwise the module loads libboddurci.so next to this file, or else
# from out/boddurci of the repository, or else the one that the system finds. The module ignores BODDURCI_LIBRARY under `perl -T`, and if
# the effective user or group is not the real one.
#
# The store is proved, and so is the order of the calls that write a save (docs/PROOFS.md). This module, and the C code that opens, locks
# and writes the files, are tested and not proved.
package Boddurci;
use strict;
use warnings;
use Carp qw(carp croak);
use Cwd qw(abs_path);
use File::Basename qw(dirname);
use FFI::Platypus 1.00;
use FFI::Platypus::Buffer qw(scalar_to_pointer);
use Scalar::Util qw(refaddr);
use Time::HiRes qw(clock_gettime CLOCK_MONOTONIC);

# The statuses of boddurci.h and boddurci_files.h, and this module's texts for some statuses. The library has a text for each status.
my ($DONE, $MISSING, $BAD_FILES, $REFUSED, $BAD_TEXT, $CHANGED, $IS_CLOSED, $NO_PROGRAM, $NO_STOCK) = (0, 1, 7, 5, 6, 8, 16, 20, 24);
my ($FILE_FAILED, $LOCKED, $FORKED, $INTERRUPTED) = (32, 33, 39, 41);
my %WORDS = (
    2  => "the key exists",
    3  => "crowded: no room for the pair, however often its page is split",
    16 => "the database is closed",
    18 => "key and value have too many bytes together",
    19 => "the argument has more than 1,024 bytes",
    20 => "no program of this database has the number",
    22 => "too long: BASE.pag would exceed the limit, 1 GiB if none is given; nothing was changed, and the database can be saved",
    39 => "the database was opened by another process",
);

# The flags of boddurci_files.h.
my %FLAGS = (r => 4 | 16, w => 16, c => 0, n => 32);
my %OPTIONS = (wide => 1, unsigned_keys => 2, no_wait => 8, any_size => 64);
my ($INSIST, $NO_FLUSH) = (128, 256);

# The sizes of the results of calls: a value, an image, a fault (with its template for unpack) and a cursor.
my ($VALUE_MOST, $IMAGE_MOST, $FAULT, $CURSOR) = (8008, 32768, "L l Z200", 16);

# The name of the library for the system's loader.
my $SONAME = "libboddurci.so.2";

# Returns whether BODDURCI_LIBRARY may choose the library. It may not do so under -T, or if the process has rights that its user lacks.
sub _obeys_environment {
    return !${^TAINT} && $< == $> && $( + 0 == $) + 0;
}

# Returns the path of the shared object. Never searches the working folder.
sub _path_of_library {
    my $named = _obeys_environment() ? $ENV{BODDURCI_LIBRARY} // "" : "";
    if ($named ne "") {
        croak "BODDURCI_LIBRARY is $named: give the absolute path of the library" if $named !~ m{^/};
        croak "$named is not there: make it with ./dbm --build-library, and name it in BODDURCI_LIBRARY" if !-e $named;
        return $named;
    }
    my $here = dirname(abs_path(__FILE__));
    return (grep { -e } map { "$here/$_" } "libboddurci.so", "../../out/boddurci/libboddurci.so")[0] // $SONAME;
}

my $library = _path_of_library();
my $ffi = FFI::Platypus->new(api => 1, lib => $library);
{
    local $SIG{__WARN__} = sub { };
    $ffi->find_symbol("boddurci_version")
        or croak "$library cannot be loaded: make libboddurci.so with ./dbm --build-library, and name it in BODDURCI_LIBRARY";
}
my @bytes = ("string", "size_t");
my @room = ("opaque", "size_t", "size_t*");
my %CALLS;
$ffi->attach(["boddurci_$_->[0]" => "_$_->[0]"], $_->[1], $_->[2]), $CALLS{$_->[0]} = __PACKAGE__->can("_$_->[0]")
    for (
        ["open_files_within", ["string", "uint32", "sint64", "opaque"] => "opaque"],
        ["files_text",  ["uint32"] => "string"],
        ["save_with",   ["opaque", "uint32", "opaque"] => "uint32"],
        ["close_files", ["opaque"] => "void"],
        ["take",        ["opaque"] => "opaque"],
        ["give",        ["opaque"] => "void"],
        ["limit",       ["opaque", "size_t"] => "uint32"],
        ["fetch",       ["opaque", @bytes, @room] => "uint32"],
        ["store",       ["opaque", @bytes, @bytes, "uint32"] => "uint32"],
        ["delete",      ["opaque", @bytes] => "uint32"],
        ["assemble",    [@bytes, @room, "size_t*", @room] => "uint32"],
        ["submit",      ["opaque", @bytes, "uint32*", "size_t*", @room] => "uint32"],
        ["stock",       ["opaque", "string", "uint32*"] => "uint32"],
        ["run",         ["opaque", "uint32", @bytes, @bytes, "uint32", "size_t", "uint64", "uint64*", "uint64*"] => "uint32"],
        ["first",       ["opaque", "opaque"] => "uint32"],
        ["next",        ["opaque", "opaque", @room, @room] => "uint32"],
        ["open_shared", ["string", "uint32", "opaque"] => "opaque"],
        ["close_shared", ["opaque"] => "void"],
        ["shared_wait", ["opaque", "sint64"] => "uint32"],
        ["shared_flush", ["opaque", "opaque"] => "uint32"],
        ["shared_fetch", ["opaque", @bytes, @room, "opaque"] => "uint32"],
        ["shared_store", ["opaque", @bytes, @bytes, "uint32", "opaque"] => "uint32"],
        ["shared_delete", ["opaque", @bytes, "opaque"] => "uint32"],
        ["shared_run",  ["opaque", "uint32", @bytes, @bytes, "uint32", "size_t", "uint64", "uint64*", "uint64*", "opaque"] => "uint32"],
        ["shared_run_now", ["opaque", "uint32", @bytes, @bytes, "uint32", "size_t", "uint64", "uint64*", "uint64*", "opaque"] => "uint32"],
        ["shared_submit", ["opaque", @bytes, "uint32*", "size_t*", @room] => "uint32"],
        ["shared_stock", ["opaque", "string", "uint32*"] => "uint32"],
    );

# Makes a buffer of $size bytes, which no other scalar shares. Returns a reference to its bytes, and its address and size for a call.
sub _room {
    my ($size) = @_;
    my $room = "\0" x $size;
    substr($room, 0, 1) = "\0";
    return (\$room, scalar_to_pointer($room), $size);
}

# Returns the bytes of a key, a value, an argument or a program, and their number. Converts an object to a string only once, since a second
# conversion may give another length.
sub _given {
    my ($given) = @_;
    my $bytes = defined $given ? "$given" : "";
    utf8::downgrade($bytes, 1) or croak "keys and values are bytes: encode the text first";
    return ($bytes, length $bytes);
}

sub _refuse {
    my ($status) = @_;
    croak $WORDS{$status} // _files_text($status);
}

sub _check {
    my ($status) = @_;
    _refuse($status) if $status != $DONE;
}

sub _die_of {
    my ($fault) = @_;
    my ($status, $system, $text) = unpack $FAULT, $$fault;
    croak $text if $status != $CHANGED;
    die bless { text => Carp::shortmess($text) }, "Boddurci::Changed";
}

# Opens the base after its locks are free. After a signal, the handler runs and the wait continues.
#
# Perl runs signal handlers between statements. So the statement that opens the base also stores its address in the object, which closes the
# base if a handler dies. For the same reason, one statement takes the mutex and releases it.
sub _open {
    my ($self, $flags, $timeout) = @_;
    my ($fault, $at) = _room(208);
    my $end = defined $timeout ? clock_gettime(CLOCK_MONOTONIC) + $timeout : undef;
    while (1) {
        my $left = defined $end ? int(1000 * ($end - clock_gettime(CLOCK_MONOTONIC))) : -1;
        $left = 0 if defined $end && $left < 0;
        $$self->{base} = _open_files_within($$self->{name}, $flags, $left, $at);
        last if defined $$self->{base};
        _die_of($fault) if unpack($FAULT, $$fault) != $INTERRUPTED;
    }
    ($$self->{db}) = (_take($$self->{base}), _give($$self->{base}));
}

# The records of all open databases, by address. An object is a reference to its record. If a signal handler dies while an object is
# destroyed, Perl drops only the object, and its record stays here until _end_left saves and closes the database.
my %open;

sub TIEHASH {
    my ($class, $base, $mode, %options) = @_;
    my $flags = $FLAGS{ $mode // "r" } // croak "the mode is r, w, c or n";
    my ($timeout, $limit) = map { defined $_ ? "$_" : undef } delete @options{"timeout", "limit"};
    my ($is_shared, $flush) = delete @options{"shared", "flush"};
    $flags |= $options{$_} ? $OPTIONS{$_} // croak "no option $_" : 0 for keys %options;
    my $name = defined $base ? "$base" : "";
    croak "the name has a zero byte" if $name =~ /\0/;
    croak "a timeout is a number of seconds, 0 or more, and less than a billion"
        if defined $timeout && !($timeout =~ /^[0-9.]+$/ && $timeout >= 0 && $timeout < 1e9);
    croak "a limit is a number of bytes of at most 15 digits" if defined $limit && $limit !~ /^[0-9]{1,15}\z/;
    croak "a shared database has the mode r, w or c, and no limit" if $is_shared && ($flags & 32 || defined $limit);
    my $is_later = defined $flush && !$flush;
    croak "only a shared database has the option flush => 0" if $is_later && !$is_shared;
    $flags |= $NO_FLUSH if $is_later;
    _end_left();
    return Boddurci::Shared->_tied($name, $flags, $timeout) if $is_shared;
    my $self = $class->_opened($name, $flags, $timeout);
    _check(_limit($self->_db, $limit)) if defined $limit;
    # If the object is destroyed before it is returned, it must save nothing: with the mode "n" it would save an empty database.
    return ($$self->{keeps} = 1, $self)[1];
}

sub _opened {
    my ($class, $name, $flags, $timeout) = @_;
    my $record = { name => $name, reads => $flags & 4, process => $$, kind => "", token => [] };
    my $self = bless \$record, $class;
    $open{ refaddr $record } = $record;
    $self->_open($flags, $timeout);
    return $self;
}

# A new thread gets no copy of a database or of its record.
sub CLONE_SKIP { 1 }

sub CLONE { %open = () }

sub _db {
    my ($self, $writes) = @_;
    _refuse($FORKED) if $$self->{process} != $$;
    _refuse($IS_CLOSED) unless $$self->{base};
    croak "the database is only read" if $writes && $$self->{reads};
    return $$self->{db};
}

# Makes a call of the library, and returns its status.
sub _made {
    my ($self, $call, $writes, @given) = @_;
    return $CALLS{$call}->($self->_db($writes), @given);
}

# Makes a call that submits a program, which uses no file, and returns its status.
sub _submitted {
    my ($self, $call, @given) = @_;
    return $CALLS{"$$self->{kind}$call"}->($self->_db, @given);
}

sub FETCH {
    my ($self, $key) = @_;
    my @key = _given($key);
    my ($room, @room) = _room($VALUE_MOST);
    my $status = $self->_made("fetch", 0, @key, @room, \my $length);
    return undef if $status == $MISSING;
    _check($status);
    return substr $$room, 0, $length;
}

sub EXISTS {
    my ($self, $key) = @_;
    return defined $self->FETCH($key);
}

sub STORE {
    my ($self, $key, $value) = @_;
    my @pair = (_given($key), _given($value));
    _check($self->_made("store", 1, @pair, 1));
}

# Between the fetch and the deletion, another process that shares the database may delete the key.
sub DELETE {
    my ($self, $key) = @_;
    my @key = _given($key);
    my $value = $self->FETCH($key[0]);
    return undef unless defined $value;
    my $status = $self->_made("delete", 1, @key);
    return undef if $status == $MISSING;
    _check($status);
    return $value;
}

sub CLEAR {
    my ($self) = @_;
    $self->DELETE($_) for $self->_keys;
}

sub _keys {
    my ($self) = @_;
    my ($cursor, $at) = _room($CURSOR);
    my ($key, @key) = _room($VALUE_MOST);
    my ($value, @value) = _room($VALUE_MOST);
    my @found;
    _check(_first($self->_db, $at));
    while (defined(my $length = $self->_turn($at, \@key, \@value))) {
        push @found, substr $$key, 0, $length;
    }
    return @found;
}

# Returns the length of the next key in an iteration, or undef after the last key.
sub _turn {
    my ($self, $cursor, $key, $value) = @_;
    my $status = _next($self->_db, $cursor, @$key, \my $key_length, @$value, \my $value_length);
    return undef if $status == $MISSING;
    _check($status);
    return $key_length;
}

sub FIRSTKEY {
    my ($self) = @_;
    $$self->{keys} = [$self->_keys];
    return shift @{ $$self->{keys} };
}

sub NEXTKEY {
    my ($self) = @_;
    return shift @{ $$self->{keys} };
}

sub SCALAR {
    my ($self) = @_;
    return scalar(my @keys = $self->_keys);
}

# Verifies a program, given as a text, and returns it for `run` of this database only. If it is refused, dies with the line or unit.
sub program {
    my ($self, $text) = @_;
    $self->_db;
    my ($image, @image) = _room($IMAGE_MOST);
    my ($told, @told) = _room($VALUE_MOST);
    my $status = _assemble(_given($text), @image, \my $size, \my $line, @told, \my $length);
    croak substr $$told, 0, $length if $status == $BAD_TEXT;
    _check($status);
    return $self->image(substr $$image, 0, $size);
}

# Like `program`, but the argument is the image of a program.
sub image {
    my ($self, $image) = @_;
    my @image = _given($image);
    my ($told, @told) = _room($VALUE_MOST);
    my $status = $self->_submitted("submit", @image, \my $number, \my $unit, @told, \my $length);
    croak substr $$told, 0, $length if $status == $REFUSED;
    _check($status);
    return bless { number => $number, of => $$self->{token} }, "Boddurci::Program";
}

# Returns the stock program of this name for `run` of this database only. If there is no such program, dies with the ten names.
sub stock {
    my ($self, $name) = @_;
    my ($text) = _given($name);
    my $status = $text =~ /\0/ ? $NO_STOCK : $self->_submitted("stock", $text, \my $number);
    croak _shown($text), ": ", _files_text($status) if $status == $NO_STOCK;
    _check($status);
    return bless { number => $number, of => $$self->{token} }, "Boddurci::Program";
}

# Each of the next five methods returns an object for a record. The methods of the object run a stock program.
sub counter { return Boddurci::Counter->new(@_) }

sub lease { return Boddurci::Lease->new(@_) }

sub fenced_lease { return Boddurci::FencedLease->new(@_) }

sub semaphore { return Boddurci::Semaphore->new(@_) }

sub rate_limit { return Boddurci::RateLimit->new(@_) }

# Returns the number of a program that this database has accepted.
sub _number {
    my ($self, $program) = @_;
    _refuse($NO_PROGRAM) unless ref $program && ref $program eq "Boddurci::Program";
    croak "the program was not accepted by this database" if $program->{of} != $$self->{token};
    return $program->{number};
}

# The call for a run without a time, and its number: the system's time in seconds.
sub _clock { ("run", time) }

# Runs a program on the record of a key, or on `blank` zeros if the key is missing. `arg` is the argument, and `now` is the time of the run,
# by default the system's time in seconds. Returns the code and the reply word, or nothing if the key is missing and there is no `blank`.
sub run {
    my ($self, $program, $key, %more) = @_;
    my @bytes = (_given($key), _given($more{arg}));
    my $has_blank = defined $more{blank} ? 1 : 0;
    my ($call, $time) = defined $more{now} ? ("run", $more{now}) : $self->_clock;
    my ($blank, $now) = map { 0 + "$_" } $more{blank} // 0, $time;
    my $number = $self->_number($program);
    my $status = $self->_made($call, 1, $number, @bytes, $has_blank, $blank, $now, \my $end, \my $word);
    return if $status == $MISSING;
    _check($status);
    return ($end, $word);
}

# Saves both files and makes the changes durable. If another program has changed the files, dies with a Boddurci::Changed and writes
# nothing, unless the option `insist` is true. If a file cannot be written and only BASE.redo has the save, warns. Then the next `tie` or
# save completes the save, and until then other programs may see only a part of it.
sub sync {
    my ($self, %options) = @_;
    Boddurci::Stocked::_need_options(\%options, "insist");
    $self->_db;
    my ($fault, $at) = _room(208);
    return if $$self->{reads};
    _die_of($fault) if _save_with($$self->{base}, $options{insist} ? $INSIST : 0, $at) != $DONE;
    my ($status, $system, $text) = unpack $FAULT, $$fault;
    carp $text if $system;
}

# Saves both files, unless the database was tied for reading, and releases the locks. If the save fails, the database stays open. In a child
# of the process that tied the hash, writes nothing, and the parent keeps the locks.
sub close {
    my ($self) = @_;
    return unless $$self->{base};
    $self->sync if $$self->{process} == $$;
    $self->_release;
}

# Closes the base. The statement that closes the base also removes it from the object, so it is closed only once, even if a handler dies.
sub _release {
    my ($self) = @_;
    _close_files(delete $$self->{base}) if $$self->{base};
    delete $open{ refaddr $$self };
}

# Returns a name for a message, as UTF-8. Escapes backslashes, control and format characters (including bidirectional controls) and, if the
# name is not UTF-8, all bytes that are not ASCII.
sub _shown {
    my ($text) = @_;
    utf8::encode($text) if utf8::is_utf8($text);
    my $strange = utf8::decode($text) ? qr/[\\\p{C}\p{Zl}\p{Zp}]/ : qr/[^\x20-\x5b\x5d-\x7e]/;
    $text =~ s/($strange)/sprintf "\\x{%x}", ord $1/ge;
    utf8::encode($text);
    return $text;
}

# Saves and closes a database that was not closed. If the save fails, warns that the changes are lost, and releases the locks.
sub _end {
    my ($self) = @_;
    return $self->_release unless $$self->{base};
    local ($@, $!, $?);
    my $is_saved = eval { $self->sync if $$self->{keeps} && $$self->{process} == $$; 1 };
    my $why = "$@";
    $why =~ s/ at \S+ line \d+\.?\n\z//;
    # A signal handler may die here too.
    for (1 .. 100) {
        last if eval { $self->_release; 1 };
    }
    carp _shown($$self->{name}), ": the changes that were not saved are lost: $why" unless $is_saved;
}

# Saves and closes the databases whose objects are gone, so that only %open refers to their records. With a true argument, saves and closes
# all databases.
sub _end_left {
    my ($has_all) = @_;
    for my $record (grep { $has_all || Internals::SvREFCNT(%$_) == 1 } values %open) {
        (bless \(my $of = $record))->_end;
    }
}

sub UNTIE { $_[0]->close }
sub DESTROY { $_[0]->_end }

# This is an END block, because everything that a save needs still exists then.
END { _end_left(1) }

# The exception of `sync` and `untie` if another program has changed the files. Its string is the text of the fault.
package Boddurci::Changed;
use overload '""' => sub { $_[0]{text} }, fallback => 1;

# A database that several processes change at the same time. `tie` with `shared` returns it. Its record has a handle and no base.
package Boddurci::Shared;
use Carp qw(carp croak);
use Cwd qw(getcwd);
use Time::HiRes qw(clock_gettime CLOCK_MONOTONIC);
our @ISA = ("Boddurci");

# The milliseconds that a call waits for a lock before it repeats the wait. Signal handlers run in between.
my $SLICE = 200;

sub _tied {
    my ($class, $name, $flags, $timeout) = @_;
    my ($fault, $at) = Boddurci::_room(208);
    # An absolute path stays right if the working folder changes.
    $name = (getcwd() // ".") . "/$name" if $name =~ m{^[^/]};
    my $record = { name => $name, flags => $flags & ~4, reads => $flags & 4, timeout => $timeout, kind => "shared_", token => [] };
    my $self = bless \$record, $class;
    $record->{handle} = Boddurci::_open_shared($name, $record->{flags}, $at) // Boddurci::_die_of($fault);
    my $wait = defined $timeout && $timeout * 1000 < $SLICE ? int($timeout * 1000) : $SLICE;
    Boddurci::_shared_wait($record->{handle}, $flags & $OPTIONS{no_wait} ? 0 : $wait);
    return $self;
}

sub _db {
    my ($self, $writes) = @_;
    croak "the database is only read" if $writes && $$self->{reads};
    return $$self->{handle} // Boddurci::_refuse($IS_CLOSED);
}

# Makes a call that uses the files, and returns its status. While the files are locked, repeats the call until the timeout.
sub _made {
    my ($self, $call, $writes, @given) = @_;
    my ($fault, $at) = Boddurci::_room(208);
    my $end = defined $$self->{timeout} ? clock_gettime(CLOCK_MONOTONIC) + $$self->{timeout} : undef;
    my $status = $LOCKED;
    while ($status == $LOCKED) {
        $status = $CALLS{"$$self->{kind}$call"}->($self->_db($writes), @given, $at);
        last if $$self->{flags} & $OPTIONS{no_wait} || (defined $end && clock_gettime(CLOCK_MONOTONIC) >= $end);
    }
    Boddurci::_die_of($fault) if $status >= $FILE_FAILED || $status == $BAD_FILES || $status == $IS_CLOSED;
    my (undef, $system, $text) = unpack $FAULT, $$fault;
    carp $text if $status == $DONE && $system;
    return $status;
}

sub _keys {
    my ($self) = @_;
    $self->_db;
    my $read = Boddurci->_opened($$self->{name}, $$self->{flags} & ~$NO_FLUSH | 4, $$self->{timeout});
    my @found = $read->_keys;
    $read->close;
    return @found;
}

# The call for a run without a time, and its number: the units in a second. The library reads the clock under the locks, so the times of the
# runs of all processes do not fall.
sub _clock { ("run_now", 1) }

# Makes all changes of all processes durable. Without the option flush => 0 each change is durable anyway.
sub sync {
    my ($self, %options) = @_;
    Boddurci::Stocked::_need_options(\%options, "insist");
    $self->_made("flush", 0);
    return;
}

sub flush { $_[0]->sync }

sub close {
    my ($self) = @_;
    Boddurci::_close_shared(delete $$self->{handle}) if $$self->{handle};
}

# Does nothing while the interpreter is destroyed: there is nothing to save, and the library may be gone.
sub _end { $_[0]->close if ${^GLOBAL_PHASE} ne "DESTRUCT" }

# The base class of counters, leases and the like: a key of a database, and the stock program that runs on its record.
package Boddurci::Stocked;
use Carp qw(croak);

our @CARP_NOT = ("Boddurci", map { "Boddurci::$_" } qw(Counter Lease FencedLease Semaphore RateLimit Shared));

my $MOST = "18446744073709551615";

sub _of {
    my ($class, $db, $key) = @_;
    my ($bytes) = Boddurci::_given($key);
    return bless { db => $db, key => $bytes, program => $db->stock($class->_name) }, $class;
}

# The number of bytes of a record that the program uses.
sub _size { 8 }

# Returns a whole number from $least to 2^64 - 1.
sub _whole {
    my ($name, $given, $least) = @_;
    my ($number) = (defined $given ? "$given" : "") =~ /^0*([0-9]{1,20})\z/;
    my $is_right = defined $number && (length $number < 20 || $number le $MOST) && $number >= $least;
    croak "$name is a whole number from $least to $MOST" unless $is_right;
    return 0 + $number;
}

# Dies if an option has an unknown name.
sub _need_options {
    my ($options, @names) = @_;
    my %is_known = map { $_ => 1 } @names;
    $is_known{$_} or croak "no option $_" for sort keys %$options;
}

# Returns the time of a run: the option `now`, or the system's time in seconds.
sub _time {
    my (%options) = @_;
    _need_options(\%options, "now");
    return defined $options{now} ? _whole("now", $options{now}, 0) : time;
}

# Runs the program with the argument on the record. Returns its code and reply word. Dies if the record is too short (code 4).
sub _run {
    my ($self, $arg, $now) = @_;
    my ($code, $word) = $self->{db}->run($self->{program}, $self->{key}, arg => $arg, blank => $self->_size, now => $now);
    $self->_is_too_short if $code == 4;
    return ($code, $word);
}

# Returns the record, or undef if the key is missing.
sub _record {
    my ($self) = @_;
    my $record = $self->{db}->FETCH($self->{key});
    return $record if !defined $record || length $record >= $self->_size;
    return $self->_is_too_short;
}

sub _is_too_short {
    my ($self) = @_;
    croak "the record of ", Boddurci::_shown($self->{key}), " is too short: ", $self->_name, " takes ", $self->_size, " bytes or more";
}

package Boddurci::Counter;
use Carp qw(croak);
our @ISA = ("Boddurci::Stocked");

sub _name { "bounded_counter" }

sub new {
    my ($class, $db, $key, %options) = @_;
    Boddurci::Stocked::_need_options(\%options, "floor", "ceiling");
    my $self = $class->_of($db, $key);
    $self->{floor} = Boddurci::Stocked::_whole("floor", $options{floor} // 0, 0);
    $self->{ceiling} = Boddurci::Stocked::_whole("ceiling", $options{ceiling} // $MOST, $self->{floor});
    return $self;
}

sub add {
    my ($self, $amount) = @_;
    my $text = defined $amount ? "$amount" : "1";
    my ($sign, $number) = $text =~ /^([-+]?)0*([0-9]{1,19})\z/;
    my $most = ($sign // "") eq "-" ? "9223372036854775808" : "9223372036854775807";
    croak "an amount is a whole number from -9223372036854775808 to 9223372036854775807"
        unless defined $number && (length $number < 19 || $number le $most);
    my ($code, $word) = $self->_run(pack("q<Q<2", "$sign$number", $self->{floor}, $self->{ceiling}), time);
    return $word if $code == 1;
    croak Boddurci::_shown($self->{key}), ": $word plus $text is outside $self->{floor} to $self->{ceiling}";
}

sub get {
    my ($self) = @_;
    my $record = $self->_record;
    return defined $record ? unpack("Q<", $record) : 0;
}

package Boddurci::Lease;
our @ISA = ("Boddurci::Stocked");

sub _name { "lease" }

sub _size { 16 }

sub new {
    my ($class, $db, $key) = @_;
    return $class->_of($db, $key);
}

# Returns the argument for an owner and a term in seconds, and the term.
sub _argument {
    my ($owner, $seconds) = @_;
    my $who = Boddurci::Stocked::_whole("owner", $owner, 0);
    my $term = Boddurci::Stocked::_whole("seconds", $seconds, 1);
    return (pack("Q<2", $who, $term), $term);
}

sub acquire {
    my ($self, $owner, $seconds, %options) = @_;
    Boddurci::Stocked::_time(%options);
    my ($argument) = _argument($owner, $seconds);
    my ($code, $word) = $self->_run($argument, $options{now});
    return $code == 1 ? $word : undef;
}

sub release {
    my ($self, $owner, %options) = @_;
    my $now = Boddurci::Stocked::_time(%options);
    $owner = Boddurci::Stocked::_whole("owner", $owner, 0);
    my $record = $self->_record;
    return "" unless defined $record;
    $self->_run(pack("Q<2", $owner, 0), $options{now});
    my ($holder, $end) = unpack "Q<2", $record;
    return $holder == $owner && $now < $end;
}

package Boddurci::FencedLease;
use Carp qw(croak);
our @ISA = ("Boddurci::Lease");

sub _name { "fenced_lease" }

sub _size { 24 }

sub acquire {
    my ($self, $owner, $seconds, %options) = @_;
    my $now = Boddurci::Stocked::_time(%options);
    my ($argument, $term) = Boddurci::Lease::_argument($owner, $seconds);
    my ($code, $word) = $self->_run($argument, $now);
    croak "all tokens of ", Boddurci::_shown($self->{key}), " are used up" if $code == 3;
    return unless $code == 1;
    my $end = $term > $MOST - $now ? $MOST : $now + $term;
    return wantarray ? ($end, $word) : $end;
}

package Boddurci::Semaphore;
our @ISA = ("Boddurci::Stocked");

sub _name { "semaphore" }

sub new {
    my ($class, $db, $key, $size) = @_;
    my $self = $class->_of($db, $key);
    $self->{permits} = Boddurci::Stocked::_whole("size", $size, 1);
    return $self;
}

sub acquire {
    my ($self) = @_;
    return ($self->_run(pack("Q<2", 1, $self->{permits}), time))[0] == 1;
}

sub release {
    my ($self) = @_;
    return ($self->_run(pack("Q<2", 0, $self->{permits}), time))[0] == 1;
}

package Boddurci::RateLimit;
our @ISA = ("Boddurci::Stocked");

sub _name { "rate_limit" }

sub _size { 16 }

sub new {
    my ($class, $db, $key, $count, $seconds) = @_;
    my $self = $class->_of($db, $key);
    $self->{count} = Boddurci::Stocked::_whole("count", $count, 1);
    $self->{seconds} = Boddurci::Stocked::_whole("seconds", $seconds, 1);
    return $self;
}

sub admit {
    my ($self, %options) = @_;
    Boddurci::Stocked::_time(%options);
    return ($self->_run(pack("Q<2", $self->{seconds}, $self->{count}), $options{now}))[0] == 1;
}

1;

__END__

=head1 NAME

Boddurci - a key-value store with a proved core, and stock programs on its records

=head1 SYNOPSIS

    use Boddurci;
    tie my %db, "Boddurci", "visits", "c" or die;
    my $db = tied %db;

    my $hits = $db->counter("hits")->add(5);
    if (defined(my $end = $db->lease("door")->acquire($owner, 30))) {
        ...    # the door is ours until $end
    }
    print "slow down\n" unless $db->rate_limit("ann", 10, 60)->admit;

=head1 DESCRIPTION

The comment at the top of this file describes how to tie a hash, the options, and how to run your own programs.

The methods below run stock programs, whose laws are proved for keys that no other program and no store changes. docs/PROGRAMS.md of
Boddurci has the record, argument, codes and reply word of each program. Numbers are whole and below 2^64, except amounts, which are from
-2^63 to 2^63 - 1.

If a call fails, it dies and changes nothing, for example if a number is out of range, or if a record is too short for the program.

=head1 METHODS

=over

=item $db->stock($name)

Returns the stock program of this name, for C<run>: C<counter>, C<bounded_add>, C<bounded_counter>, C<compare_and_set>, C<sequence>,
C<lease>, C<fenced_lease>, C<rate_limit>, C<semaphore> or C<token_bucket>. Dies with the ten names if there is no such program.

=item $db->counter($key, floor => $floor, ceiling => $ceiling)

A number in the first 8 bytes of the record, the lowest byte first. It is 0 if the key is missing. By default the floor is 0 and the ceiling
2^64 - 1. The program is C<bounded_counter>.

C<< ->add($amount) >> adds an amount, by default 1, which may be negative, and returns the new number. If the sum would be below the floor
or above the ceiling, it dies and changes nothing. C<< ->get >> returns the number.

=item $db->lease($key)

A lease, which one owner at a time holds. An owner is a number that nobody else has, such as a random one.

C<< ->acquire($owner, $seconds) >> gives the lease to the owner, or renews it, for C<$seconds> from now. It returns the time at which the
lease ends, or undef if another owner holds it. When the lease ends, another owner may get it: stop before that time. C<< ->release($owner)
>> releases the lease, and returns whether the owner held it.

Two owners never hold a lease at the same time if times never fall. Both methods take the option C<< now => $time >>, by default the
system's time in seconds. Pass it in no call, or in every call from one clock.

=item $db->fenced_lease($key)

A lease with a token. In list context C<acquire> returns two numbers, the end and the token, or nothing if another owner holds the lease. In
scalar context it returns the end. Each new owner gets a greater token than all owners before, and a renewal keeps the token. Let the
resource that the lease protects refuse a token below the greatest that it has seen.

=item $db->semaphore($key, $size)

C<< ->acquire >> takes a permit without waiting, and returns whether a permit was free. C<< ->release >> releases a permit, and returns
whether anybody held a permit. A permit does not expire.

=item $db->rate_limit($key, $count, $seconds)

C<< ->admit >> returns whether a call is admitted: at most C<$count> calls in each window of C<$seconds>. The first call after the end of a
window begins the next window. C<admit> takes the option C<< now => $time >>, like the methods of a lease.

=back

=cut
