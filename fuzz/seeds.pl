#!/usr/bin/perl
# The vectors as first inputs of the fuzzer, each in a file of its own: seeds.pl FOLDER. The header is that of input.h, with a number that
# it has no byte for taken to the nearest one that it has.
use strict;
use warnings;

my ($folder) = @ARGV;

# A small number as it is, another one as its place among those at a bound.
sub edge { # NUMBER EDGES...
    my ($number, @edges) = @_;
    return $number if $number >= 0 && $number < 240;
    for my $at (0 .. $#edges) { return 240 + $at if $number == $edges[$at] }
    return 239;
}

sub allowance {
    my ($number) = @_;
    return 0xff00 + edge($number, 1000001, 1000000, 4294967295, 999999) if $number >= 999999;
    return $number < 2048 ? $number : 2047;
}

sub words { # LIST
    my ($list) = @_;
    return $list eq '.' ? () : split /,/, $list;
}

# The list of a table's groups.
sub list { # COUNT WORDS...
    my ($count, @words) = @_;
    my %members;
    for (my $at = 0; $at + 1 < @words && $at < 2 * $count; $at += 2) { $members{$words[$at]}++ }
    my @list = map { ($_, $members{$_}) } sort { $a <=> $b } keys %members;
    push @list, 0 while @list < 2 * int(@words / 2);
    return @list;
}

# The bytes for a list: its length, and up to two words that are not the table's list's. One that has no byte is left as it is there.
sub list_bytes { # LIST RIGHT
    my ($list, $right) = @_;
    my $past = @$list - @$right;
    my @bytes = $past < 0 ? 239 - $past : $past < 16 ? $past : 15;
    for my $at (grep { $_ < 64 && $_ < @$list && $list->[$_] != $right->[$_] } 0 .. $#$right) {
        my $more = $list->[$at] - $right->[$at];
        my $word = $more == 1 ? 238 : $more == -1 ? 239 : edge($list->[$at], -1);
        push @bytes, 192 + $at, $word if @bytes < 5 && ($word != 239 || $more == -1);
    }
    return @bytes, (0) x (5 - @bytes);
}

sub seed { # FILE SCRIPT D N G TALLY COUNT NAME TABLE LIST
    my ($file, $script, $d, $n, $g, $tally, $count, $name, $table, $list) = @_;
    my @words = words($table);
    my @list = words($list);
    my @right = list($count, @words);
    my $places = int(@words / 2);
    my $header = pack 'CCvCCCCv', edge($d, 255, 256, 257, 4294967295), edge($g, 65534, 65535, 65536, 4294967295), allowance($n),
        edge($tally > 1e12 ? 1e12 + 1 : $tally, 1e12 - 1, 1e12, 1e12 + 1), $count <= $places ? $count : 240, scalar @words, 0, $name;
    my @given = map { $_ < 0 ? 240 : edge($_, -1) } @words;
    push @given, 0 while @given < 48;
    $header .= pack 'C5 x C48', list_bytes(\@list, \@right), @given[0 .. 47];
    open my $out, '>:raw', "$folder/$file" or die "$folder/$file: $!";
    print $out $header, $script eq '-' ? '' : pack 'H*', $script;
}

sub lines { # FILE
    my ($file) = @_;
    open my $in, '<', "tests/vectors/$file.txt" or die "$file: $!";
    return grep { !/^#/ } <$in>;
}

my $number = 0;
for (lines('checks')) { seed('check' . ++$number, (split)[0], 16, 1000, 3, 0, 0, 1, (join ',', (0) x 16) x 2) }
$number = 0;
for (lines('runs')) { seed('run' . ++$number, (split)[0 .. 8]) }
