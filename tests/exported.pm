# What tests/promises and tests/premises both read: the functions that the libraries export, each
# with its contract in the words of a statement, also where it holds in any encoding form, and which
# file each word of a text is brought in from; and the functions that a static library gives to C.
package exported;
use strict;
use warnings;
use utf8;

sub text { my ($file) = @_; open my $handle, "<:encoding(UTF-8)", $file or die "no $file\n"; local $/; return scalar <$handle> }
sub plain { my ($words) = @_; $words =~ s/\s+/ /g; $words =~ s/^ | $//g; return $words }

# which file each word of a text is brought in from
sub origins {
    my ($text) = @_;
    my %from;
    while ($text =~ /^(?:ghost )?use (Rattle\S+)\.\{([^}]*)\}/mg) {
        my ($module, $words) = ($1, $2);
        for (split /,\s*/, $words) { my ($word, $here) = /^(\S+) as (\S+)$/ ? ($1, $2) : ($_, $_); $from{$here} = "$module.$word" }
    }
    return \%from;
}

# what stands between two braces that belong together
my $braced = qr/\{((?:[^{}]++|(?<inner>\{(?:[^{}]++|(?&inner))*\}))*)\}/;

# the function NAME of a source: its parameters as [name, type], its result, the buffers that it may
# write, its contract (X is what a parameter was before the call, X' a buffer after it, r the
# result), whether C can call it, and what of its clauses is not read; none if it is not there
sub function {
    my ($source, $name) = @_;
    my ($before, $public, $over, $given, $head) = $source =~ /^((?:#\[.*\]\n)*)pub ((?:unsafe )?(?:extern "C" )?)fn $name(?:<([^()]*)>)?\(([^)]*)\)(.*?)^\{\n/ms or return undef;
    my @parameters = map { [/^\s*(\w+): (.*?)\s*$/s] } grep { /\S/ } split /,\s*(?![^<]*>)/, $given;
    my ($result) = $head =~ /^ -> ([^\n]*?)\s*$/m;
    my @contract;
    while ($head =~ /^ +ensures(?: \w+)? $braced$/mg) { push @contract, plain($1) }
    for (@contract) { s/\b(\w+)\.(?:now|old)\b/$1/g; s/\b(\w+)\.new\b/$1'/g; s/\bresult\b/r/g }
    my $clauses = () = $head =~ /\bensures\b/g;
    my @wrong;
    push @wrong, "has a clause that is not read, or none" if $clauses == 0 or $clauses != @contract;
    push @wrong, "has a requires" if $head =~ /\brequires\b/;
    return {
        name => $name, parameters => \@parameters, result => $result, lent => [map { $_->[0] } grep { $_->[1] =~ /^&mut / } @parameters],
        contract => \@contract, origin => origins($source), wrong => \@wrong, over => $over // "",
        for_c => $public =~ /^extern "C" $/ && $before =~ /^#\[unsafe\(no_mangle\)\]$/m,
    };
}

# the ghosts of a trait that a source of a crate brings in, by name, each with its type; and which
# file each word of these types is brought in from
sub ghosts {
    my ($crate, $source, $trait) = @_;
    my $brought = qr/(?:$trait|\{(?:[^}]*\W)?$trait(?:\W[^}]*)?\});/;
    my ($from, $module) = $source =~ /^use (\w+)::(?:(\w+)::)?$brought/m or return ({}, {});
    if ($from eq "crate") { $from = $crate } elsif (!defined $module and -f "crates/$from/src/lib.rt") { ($module) = text("crates/$from/src/lib.rt") =~ /^pub use (\w+)::$brought/m }
    return ({}, {}) if !defined $module or !-f "crates/$from/src/$module.rt";
    my $file = text("crates/$from/src/$module.rt");
    my ($body) = $file =~ /^pub trait $trait \{\n(.*?)^\}\n/ms or return ({}, {});
    return ({ $body =~ /^    ghost (\w+): \{ (.*) \};$/mg }, origins($file));
}

# A function over any E of a trait that has a ghost `form` and a ghost `numbers`: its contract
# speaks of an encoding form, E.form, and of texts and buffers of units by their numbers,
# (E.numbers X). In a statement the form is f, and X is the numbers. Puts the contract into these
# words, and the type of f, by the file that it is brought in from, into {form}. A contract that
# speaks of units in another way, or of something else that E has, has no such words, and stays as
# it is. So does that of a function over anything else.
sub in_any_form {
    my ($crate, $source, $f) = @_;
    my ($any, $trait) = $f->{over} =~ /^(\w+): (\w+)$/ or return;
    my ($ghosts, $origin) = ghosts($crate, $source, $trait);
    return if !$ghosts->{form} or ($ghosts->{numbers} // "") ne "List Self.Unit → List ℕ";
    my %is_units = map { $_->[0] => scalar($_->[1] =~ /\b${any}::Unit\b/) } @{ $f->{parameters} };
    my @in_words;
    for my $clause (@{ $f->{contract} }) {
        # the words that are put in stand between marks, until it is seen what stands beside them
        my $marked = $clause =~ s/\($any\.numbers (\w+)('?)\)/$is_units{$1} ? "\x01$1$2\x02" : $&/ger =~ s/(?<![\w.])$any\.form(?![\w.'])/\x01f\x02/gr;
        my $beside = $marked =~ s/\x01\w+'?\x02//gr;
        return if grep { $_ eq $any or $_ eq "f" or $is_units{ s/'$//r } } split /[\s().,]+/, $beside;
        push @in_words, $marked =~ s/[\x01\x02]//gr;
    }
    $f->{contract} = \@in_words;
    $f->{form} = $origin->{ $ghosts->{form} } // $ghosts->{form};
}

# the static libraries of crates.txt, which C alone calls: of each the crates that it names
sub static { return map { /^(\w+) staticlib: ?(.*)$/ ? ($1 => [split / +/, $2]) : () } split /\n/, text("crates.txt") }

# the exported functions by crate::name: those that a lib.rt brings out by `pub use`; and what is
# wrong
sub functions {
    my (%functions, @wrong);
    my %static = static();
    for my $lib (glob "crates/*/src/lib.rt") {
        my ($crate) = $lib =~ m{^crates/(.*?)/};
        next if -f "crates/$crate/src/main.rt" or $static{$crate};
        my $table = text($lib);
        $table =~ s{//.*}{}g;
        for (map { plain($_) } $table =~ /^\s*(pub\b[^;]*;?)/mg) {
            my ($module, $names) = /^pub use (\w+)::(\w+|\{[\w, ]+\});$/;
            if (!defined $module) { push @wrong, "$lib: $_ is no `pub use MODULE::NAME;` or `pub use MODULE::{NAME, ..};`"; next }
            for my $name ($names =~ /\w+/g) {
                next if $name !~ /^[a-z]/;
                my $path = "${crate}::$name";
                my $f = function(text("crates/$crate/src/$module.rt"), $name);
                if (!defined $f) { push @wrong, "$path is not in crates/$crate/src/$module.rt"; next }
                push @wrong, map { "$path $_" } @{ $f->{wrong} };
                in_any_form($crate, text("crates/$crate/src/$module.rt"), $f);
                $functions{$path} = { %$f, crate => $crate, module => $module };
            }
        }
    }
    return (\%functions, @wrong);
}

# The functions that a static library gives to C: each is an exported function of a crate that it
# names, of the same name, with the same parameters, result and clauses, each word of these brought
# in from the same file. By name; and what is wrong.
sub for_c {
    my ($functions) = @_;
    my %static = static();
    my (%given, @wrong);
    for my $crate (sort keys %static) {
        my $any = 0;
        for my $file (glob "crates/$crate/src/*.rt") {
            my $source = text($file);
            for my $name ($source =~ /\bfn (\w+)/g) {
                my $path = "${crate}::$name";
                my $f = function($source, $name);
                if (!$f or !$f->{for_c}) { push @wrong, "$path is no `#[unsafe(no_mangle)] pub extern \"C\" fn`"; next }
                $any = $given{$name} = 1;
                push @wrong, map { "$path $_" } @{ $f->{wrong} };
                my ($of) = grep { defined } map { $functions->{"${_}::$name"} } @{ $static{$crate} };
                if (!$of) { push @wrong, "$path: no crate that $crate names exports a function of that name"; next }
                my ($has, $wanted) = map {
                    my $it = $_;
                    join "; ", (map { "@$_" } @{ $it->{parameters} }), "-> $it->{result}", map {
                        my $clause = $_;
                        map { "ensures $_" } $clause, map { $it->{origin}{$_} // () } split /[\s().,]+/, $clause;
                    } @{ $it->{contract} };
                } $f, $of;
                push @wrong, "$path has   $has\n    and $of->{crate}::$name has   $wanted" if $has ne $wanted;
            }
        }
        push @wrong, "crate $crate gives C nothing" if !$any;
    }
    push @wrong, "crates.txt has no static library" if !%static;
    return (\%given, @wrong);
}

1;
