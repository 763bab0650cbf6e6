# BioPerl's side. perl bioperl.pl read|write IN OUT, a text a line; as ape.R.
use strict;
use warnings;
use Bio::TreeIO;
my ($what, $in, $out) = @ARGV;
open my $texts, '<', $in or die;
open my $told, '>', $out or die;
srand 1;
$SIG{__WARN__} = sub { };

sub tree_of {
    my ($text) = @_;
    open my $handle, '<', \$text or die;
    return Bio::TreeIO->new(-fh => $handle, -format => 'newick')->next_tree;
}

sub told {
    my ($tree) = @_;
    my (%number, @tips, @edges);
    my @leaves = $tree->get_leaf_nodes;
    for my $node (@leaves, grep { !$_->is_Leaf } $tree->get_nodes) {
        $number{$node->internal_id} = 1 + keys %number;
    }
    push @tips, defined $_->id ? $_->id : '' for @leaves;
    for my $node ($tree->get_nodes) {
        push @edges, $number{$node->ancestor->internal_id} . '-' . $number{$node->internal_id} if $node->ancestor;
    }
    return 'ok ' . join(',', @tips) . ' ' . join(',', @edges);
}

sub written {
    my ($tree) = @_;
    $_->branch_length(sprintf '%.6f', rand) for grep { $_->ancestor } $tree->get_nodes;
    my @inner = grep { !$_->is_Leaf && $_->ancestor } $tree->get_nodes;
    $tree->reroot($inner[rand @inner]) if @inner && rand() < 0.7;
    my $text = '';
    open my $handle, '>', \$text or die;
    my $writer = Bio::TreeIO->new(-fh => $handle, -format => 'newick');
    $writer->write_tree($tree);
    $writer->close;
    $text =~ s/\n//g;
    return $text;
}

while (my $text = <$texts>) {
    chomp $text;
    my $line = eval {
        my $tree = tree_of($text);
        defined $tree ? $what eq 'read' ? told($tree) : written($tree) : 'error nothing read';
    };
    if (!defined $line) {
        my $why = $@;
        $why = $1 if $why =~ /MSG: (.*)/;
        $line = "error $why";
        $line =~ s/\s+/ /g;
    }
    print $told "$line\n";
}
