# What .ci/fits, .ci/edits and tests/promises read of a must-fail edit: its changes, and the function
# in whose body each lies.
package edit;
use strict;
use warnings;

sub text { my ($file) = @_; open my $handle, "<", $file or return undef; local $/; return scalar <$handle> }

# the changes of an edit, in order: file, old, new, and the comment lines above
sub changes {
    my ($edit) = @_;
    my ($file, $said, @changes) = ("", "");
    for (split /\n/, text($edit)) {
        if (/^#/) { $said .= "$_\n" }
        elsif (/^file: (.*)/) { $file = $1 }
        elsif (/^old: (.*)/) { push @changes, { file => $file, old => $1, said => $said }; $said = "" }
        elsif (/^new: ?(.*)/ && @changes) { $changes[-1]{new} = $1 }
    }
    return @changes;
}

# an edit in which wrong versions of several functions stand together, each to be judged by itself
sub shared { my ($edit) = @_; return $edit =~ m{/helpers\w*(?:\.edit)?$} }

# the functions of a source: each with its name, and where its text, with its attributes, and its
# body begin and end. A method's name has its type before it, and of a trait's method the trait's
# too: TYPE/NAME, TYPETRAIT/NAME
sub functions {
    my ($source) = @_;
    my @functions;
    while ($source =~ /^(?:#\[[^\n]*\]\n)*(?:pub(?:\(crate\))? )?(?:extern "C" )?fn (\w+).*?(?<=[ \n])\{\n(.*?)^\}$/msg) {
        push @functions, { name => $1, begin => $-[0], from => $-[2], to => $+[2] };
    }
    while ($source =~ /^impl(?:<[^\n]*?>)? (?:(\w+)(?:<[^\n]*>)? for )?(\w+)[^\n]*\{\n(.*?)^\}$/msg) {
        my ($owner, $start, $block) = ($2 . ($1 // ""), $-[3], $3);
        while ($block =~ /^    (?:pub(?:\(crate\))? )?fn (\w+).*?(?<=[ \n])\{\n(.*?)^    \}$/msg) {
            push @functions, { name => "$owner/$1", begin => $start + $-[0], from => $start + $-[2], to => $start + $+[2] };
        }
    }
    # what a static holds is what the function that lends it gives
    while ($source =~ /^static (\w+): [^;]*;[^;]*;$/msg) {
        my ($static, $from, $to) = ($1, $-[0], $+[0]);
        my ($lends) = grep { substr($source, $_->{from}, $_->{to} - $_->{from}) =~ /^\s*&$static\s*$/ } @functions;
        push @functions, { name => $lends->{name}, begin => $from, from => $from, to => $to, static => 1 } if $lends;
    }
    return @functions;
}

# the module of a file of a crate's code, as MODULE/, or nothing at the root; none for another file
sub module { my ($file) = @_; return $file =~ m{^src/(\w+)\.rt$} ? $1 =~ /^(?:lib|main)$/ ? "" : "$1/" : undef }

# the function in whose body a text stands, as MODULE/NAME ('NAME' at the root of a crate); none for
# a signature, a contract, a constant or a type. A static is a constant, but where wrong versions of
# several functions stand together: there it is of the function that lends it
sub body {
    my ($crate, $file, $old, $shared) = @_;
    my $module = module($file) // return undef;
    my $source = text("$crate/$file") // return undef;
    my $at = index $source, $old;
    return undef if $at < 0;
    for (grep { $shared || !$_->{static} } functions($source)) { return "$module$_->{name}" if $_->{from} <= $at && $at + length($old) <= $_->{to} }
    return undef;
}

# the function in whose text a line of a file stands, as body() names it
sub at_line {
    my ($crate, $file, $line) = @_;
    my $module = module($file) // return undef;
    my $source = text("$crate/$file") // return undef;
    my $at = length join "", map { "$_\n" } (split /\n/, $source, -1)[0 .. $line - 2];
    for (functions($source)) { return "$module$_->{name}" if $_->{begin} <= $at && $at <= $_->{to} }
    return undef;
}

1;
