# Runs libmarpa over a book and some words, a new recognizer for each round, and asks after each word which keys are
# expected. Prints the nanoseconds a word, those of three calls that only look a number up, and how many keys were expected
# after each word. What is timed is the words alone.
use strict;
use warnings;
use Marpa::R2;
use Time::HiRes qw(clock_gettime CLOCK_MONOTONIC);

my ( $parts, $keys, $start, $rounds ) = split ' ', <STDIN>;
my $grammar = Marpa::R2::Thin::G->new( { if => 1 } );
my %symbol = map { $_ => $grammar->symbol_new() } 1 .. $parts, 33 .. 32 + $keys;
while ( defined( my $line = <STDIN> ) ) {
    my ( $left, @right ) = split ' ', $line or last;
    $grammar->rule_new( $symbol{$left}, [ @symbol{@right} ] );
}
$grammar->start_symbol_set( $symbol{$start} );
$grammar->precompute();
my @words = map { $symbol{$_} } split ' ', <STDIN>;

my ( $seconds, $calls, @expected ) = ( 0, 0 );
for my $round ( 1 .. $rounds ) {
    my $recce = Marpa::R2::Thin::R->new($grammar);
    $recce->start_input();
    @expected = ();
    my $from = clock_gettime(CLOCK_MONOTONIC);
    for my $word (@words) {
        $recce->alternative( $word, 1, 1 );
        $recce->earleme_complete();
        push @expected, scalar( my @lit = $recce->terminals_expected() );
    }
    my $past = clock_gettime(CLOCK_MONOTONIC);
    for my $word (@words) {
        $recce->current_earleme();
        $recce->current_earleme();
        $recce->current_earleme();
    }
    $calls += clock_gettime(CLOCK_MONOTONIC) - $past;
    $seconds += $past - $from;
}
printf "%.3f\n", 1e9 * $_ / ( $rounds * @words ) for $seconds, $calls;
print "@expected\n";
