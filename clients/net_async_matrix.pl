#!/usr/bin/perl
# Two clients of a Matrix library (Debian's libnet-async-matrix-perl) in a room of a server, over TLS. Carol is in the room, and dave joins it. They
# send ten messages in turn, each once its sender has received the one before, which a sync that waits brings. Ends with status 0 and a
# line of what both have received, or with 1 and what differs or was still awaited after 50 seconds.
#
# Usage: net_async_matrix.pl HOST:PORT CERTIFICATE ROOM. clients/behind_nginx starts a server for it.
use v5.26;
use warnings;
use IO::Async::Loop;
use Net::Async::Matrix;

use constant { MESSAGES => 10, LIMIT => 50 };

my ( $server, $certificate, $room ) = @ARGV;
my $loop = IO::Async::Loop->new;

# A user's client, in the room, with the texts that it has received.
sub client {
    my ( $user, $token ) = @_;
    my @received;
    my $matrix = Net::Async::Matrix->new(
        server => $server, SSL => 1, SSL_ca_file => $certificate,
        on_room_message => sub { push @received, $_[2]{body} },
    );
    $loop->add($matrix);
    $matrix->login( user_id => "\@$user:example.org", access_token => $token )->get;
    return { room => $matrix->join_room($room)->get, received => \@received };
}

# Waits until the client has received so many texts.
sub awaits {
    my ( $client, $count ) = @_;
    $loop->loop_once until @{ $client->{received} } >= $count;
}

local $SIG{ALRM} = sub { say "net_async_matrix: not done after ", LIMIT, " seconds"; exit 1 };
alarm LIMIT;
my @clients = ( client( carol => "tok_c1" ), client( dave => "tok_d1" ) );
my @sent;
for my $number ( 1 .. MESSAGES ) {
    my $sender = $clients[ $number % 2 ];
    awaits( $sender, $number - 1 );
    push @sent, "message $number";
    # (without a transaction this release sends by POST, which the API doesn't have)
    $sender->{room}->send_message( type => "m.text", body => $sent[-1], txn_id => "t$number" )->get;
}
for my $client (@clients) {
    awaits( $client, MESSAGES );
    next if "@sent" eq "@{ $client->{received} }";
    say "net_async_matrix: sent @sent, received @{ $client->{received} }";
    exit 1;
}
say "net_async_matrix: both clients received the ", MESSAGES, " messages in order";
