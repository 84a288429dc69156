#!/usr/bin/perl
# The recipes by Cache::Memcached::Fast: lock.py, counter.py, limit.py and settings.py say what each does and why.
#
# usage: recipes.pl lock NODES NAME SECONDS COMMAND ..
#        recipes.pl counter NODES NAME [WRITER ADDS]
#        recipes.pl limit NODES USER LIMIT SECONDS TRIES
#        recipes.pl settings NODES NAME [FIELD VALUE]         NODES is HOST:PORT[,HOST:PORT ..]
use strict;
use warnings;
use Cache::Memcached::Fast;
use JSON::PP;
use Time::HiRes qw(time sleep);

my $PATIENCE = 10;

# A get that finds nothing, one of a busy key and one whose node is gone all give undef. What is there is told apart by `add`, whose answers differ: true where it was
# made, '' where something is there, undef where that is not known. So each key has something in it from its first use on.
package Store;

sub new { my ($class, $nodes) = @_; return bless { nodes => [split /,/, $nodes] }, $class }

sub client {
    my ($self) = @_;
    return $self->{client} //= Cache::Memcached::Fast->new({ servers => [$self->{nodes}[0]], connect_timeout => 1, io_timeout => $PATIENCE, max_failures => 0 });
}

# Goes on at the next node.
sub leave {
    my ($self) = @_;
    delete $self->{client};
    push @{ $self->{nodes} }, shift @{ $self->{nodes} };
}

# The value of a key and its tag. Where nothing is there yet, it begins with this value.
sub read {
    my ($self, $key, $first) = @_;
    my $end = Time::HiRes::time() + $PATIENCE;
    while (Time::HiRes::time() < $end) {
        my $held = $self->client->gets($key);
        return ($held->[1], $held->[0]) if $held;
        $self->leave unless defined $self->client->add($key, $first) || defined $self->client->server_versions->{ $self->{nodes}[0] };
        Time::HiRes::sleep(0.005);
    }
    die "$key can't be read\n";
}

# Writes over what was read under this tag: true, '' where it was changed since, undef where that is not known.
sub replace { my ($self, $key, $tag, $value) = @_; return $self->client->cas($key, $tag, $value) }

sub set { my ($self, $key, $value) = @_; return $self->client->set($key, $value) }

package main;

sub lock_while {
    my ($nodes, $name, $seconds, @command) = @_;
    my ($store, $key, $me) = (Store->new($nodes), "lock:$name", join("-", $$, time, rand));
    my ($seen, $since, $holder, $tag) = (-1, 0);
    while (1) {
        ($holder, $tag) = $store->read($key, "");
        last if $holder eq $me;
        ($seen, $since) = ($tag, time) if $tag != $seen;
        if ($holder eq "" || time - $since > $seconds) { $store->replace($key, $tag, $me) }
        else                                           { sleep 0.02 }
    }
    $ENV{TOKEN} = $tag;
    my $status = system(@command) >> 8;
    $store->replace($key, $tag, "") while ($store->read($key, ""))[1] == $tag;
    return $status;
}

sub counter {
    my ($nodes, $name, $writer, $adds) = @_;
    my $store = Store->new($nodes);
    my $part = sub { ($store->read("count:$name:$_[0]", 0))[0] };
    if (!defined $writer) {
        my $sum = 0;
        $sum += $part->($_) for split / /, ($store->read("writers:$name", ""))[0];
        print "$sum\n";
        return 0;
    }
    while (1) {
        my ($writers, $tag) = $store->read("writers:$name", "");
        last if grep { $_ eq $writer } split / /, $writers;
        $store->replace("writers:$name", $tag, $writers eq "" ? $writer : "$writers $writer");
    }
    my $total = $part->($writer);
    for (1 .. $adds) {
        $total++;
        $store->set("count:$name:$writer", $total) while $part->($writer) != $total;
    }
    print "$total\n";
    return 0;
}

sub is_allowed {
    my ($store, $user, $limit, $seconds) = @_;
    while (1) {
        my ($held, $tag) = $store->read("limit:$user", "0 0");
        my ($window, $used) = split / /, $held;
        my $now = int(time / $seconds);
        ($window, $used) = ($now, 0) if $window < $now;
        return 0 if $used >= $limit;
        my $counted = $store->replace("limit:$user", $tag, "$window " . ($used + 1));
        return $counted ? 1 : 0 if !defined $counted || $counted;
    }
}

sub limit {
    my ($nodes, $user, $limit, $seconds, $tries) = @_;
    my $store = Store->new($nodes);
    print scalar(grep { is_allowed($store, $user, $limit, $seconds) } 1 .. $tries), "\n";
    return 0;
}

sub settings {
    my ($nodes, $name, $field, $value) = @_;
    my ($store, $json) = (Store->new($nodes), JSON::PP->new->canonical);
    while (1) {
        my ($held, $tag) = $store->read("settings:$name", "{}");
        my $fields = $json->decode($held);
        if (!defined $field || ($fields->{$field} // "") eq $value) {
            print $json->encode($fields), "\n";
            return 0;
        }
        $fields->{$field} = $value;
        $store->replace("settings:$name", $tag, $json->encode($fields));
    }
}

my %RECIPES = (lock => \&lock_while, counter => \&counter, limit => \&limit, settings => \&settings);
my $recipe = $RECIPES{ shift @ARGV // "" } or die "usage: recipes.pl lock|counter|limit|settings NODES NAME ..\n";
exit $recipe->(@ARGV);
