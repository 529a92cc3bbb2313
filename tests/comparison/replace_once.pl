#!/usr/bin/perl
# replace_once.pl FILE OLD NEW
# Replaces OLD by NEW in FILE; fails unless OLD stands there exactly once.
use strict;
use warnings;

my ($file, $old, $new) = @ARGV;
open(my $in, '<', $file) or die "$file: $!\n";
my $text = do { local $/; <$in> };
close $in;
my $found = () = $text =~ /\Q$old\E/g;
die "$file: this text stands there $found times and not once:\n$old\n" if $found != 1;
$text =~ s/\Q$old\E/$new/;
open(my $out, '>', $file) or die "$file: $!\n";
print $out $text;
close $out or die "$file: $!\n";
