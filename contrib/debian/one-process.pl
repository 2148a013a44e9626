# Runs the lines of standard input one behind another, as a shell would, until one fails. Debhelper's programs run in copies of this
# process, which has read their library: by itself each takes a tenth of a second more.
use strict;
use warnings;
use Debian::Debhelper::Dh_Getopt;
use Debian::Debhelper::Dh_Lib;
use Text::ParseWords;

for my $line (my @lines = <STDIN>) {
    my $child = fork() // die "no process: $!\n";
    if (!$child) {
        exec "/bin/sh", "-c", $line if $line !~ /^dh_/;
        ($0, @ARGV) = shellwords($line);
        die "$0 isn't there\n" if !-r "/usr/bin/$0";
        $Debian::Debhelper::Dh_Lib::TOOL_NAME = $0;  # (else the name of this one)
        do "/usr/bin/$0";
        die $@ if $@;
        exit;
    }
    waitpid $child, 0;
    exit 1 if $?;
}
