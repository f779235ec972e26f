#!/usr/bin/perl
# An ESME by Net::SMPP (Debian: libnet-smpp-perl) against the nodes of a centre at 127.0.0.1: binds and refusals, submits, queries, deliveries and receipts,
# cancels, expiry, nacks of what the centre does not have, unbinds.
#
#     perl tools/clients/esme.pl PORT [PORT2]
#
# PORT2 is of another node, at which the first message is queried, too. The accounts are sme1 (pw1) and sme2 (pw2); messages to 2.. go to sme2, all others
# to sme1. It prints 'ok NAME' or 'not ok NAME: SEEN' for each check, and at last 'N checks, M wrong'; the exit status is 1 if any is wrong. It takes about 15
# seconds, and 60 at most.
use strict;
use warnings;
use IO::Select;
use Net::SMPP;
use Time::HiRes 'time';

$| = 1;
my ($port, $other_port) = @ARGV;
die "esme.pl PORT [PORT2]\n" unless defined $port;

# Net::SMPP takes SIGALRM for its own while it reads, so a child watches the time.
my $parent = $$;
my $watch = fork // die "fork: $!\n";
if (!$watch) {
    for (1 .. 60) {
        sleep 1;
        exit 1 if getppid != $parent;
    }
    print "not ok in_time: 60 seconds are over\n";
    kill KILL => $parent;
    exit 1;
}
END {
    if ($watch) {
        my $status = $?;
        kill TERM => $watch;
        waitpid $watch, 0;
        $? = $status;
    }
}

my ($checks, $wrong) = (0, 0);

sub check {
    my ($name, $is_good, $seen) = @_;
    $checks++;
    $wrong++ unless $is_good;
    print $is_good ? "ok $name\n" : "not ok $name: " . ($seen // 'nothing') . "\n";
}

# What a PDU says, for those who read a failure.
sub said {
    my $pdu = shift;
    return $pdu ? sprintf('command_id 0x%08x, command_status 0x%02x', $pdu->{cmd}, $pdu->{status}) : 'no answer';
}

sub has_status {
    my ($pdu, $status) = @_;
    return $pdu && $pdu->{cmd} != Net::SMPP::CMD_generic_nack && $pdu->{status} == $status;
}

# With async => 1 a call gives its sequence_number. Without it Net::SMPP waits for the response, drops all that comes before, also each deliver_sm and
# generic_nack, and waits on.
sub connected {
    my $esme = Net::SMPP->new_connect('127.0.0.1', port => shift, async => 1, timeout => 5) or die "no connection: $!\n";
    return $esme;
}

my %sme1 = (system_id => 'sme1', password => 'pw1', interface_version => 0x34);
my %sme2 = (system_id => 'sme2', password => 'pw2', interface_version => 0x34);

sub bound {
    my ($at, %as) = @_;
    my $esme = connected($at);
    return ($esme, answer($esme, $esme->bind_transceiver(%sme1, %as)));
}

my @deliveries;

# The answer with this sequence_number. Each deliver_sm that comes before is kept, and answered ESME_ROK.
sub answer {
    my ($esme, $sequence, $seconds) = @_;
    my $end = time + ($seconds // 10);
    while ((my $left = $end - time) > 0) {
        IO::Select->new($esme)->can_read($left) or last;
        my $pdu = $esme->read_pdu or return;
        if ($pdu->{cmd} == Net::SMPP::CMD_deliver_sm) {
            push @deliveries, $pdu;
            $esme->deliver_sm_resp(seq => $pdu->{seq}, message_id => '');
        } elsif ($pdu->{cmd} == Net::SMPP::CMD_enquire_link) {
            $esme->enquire_link_resp(seq => $pdu->{seq});
        } elsif (defined $sequence && $pdu->{seq} == $sequence) {
            return $pdu;
        }
    }
    return;
}

# The first deliver_sm that fits, for which it waits so many seconds.
sub delivery {
    my ($esme, $fits, $seconds) = @_;
    my $end = time + $seconds;
    do {
        for my $place (0 .. $#deliveries) {
            return splice(@deliveries, $place, 1) if $fits->($deliveries[$place]);
        }
        answer($esme, undef, 0.3);
    } while (time < $end);
    return;
}

sub is_message {
    my $text = shift;
    return sub { $_[0]{esm_class} == 0 && $_[0]{short_message} eq $text };
}

sub is_receipt {
    my ($id, $state) = @_;
    return sub {
        my $found = shift;
        return $found->{esm_class} == 4 && ($found->{receipted_message_id} // '') eq "$id\0" && ord($found->{message_state} // '') == $state;
    };
}

my %source = (source_addr_ton => 1, source_addr_npi => 1, source_addr => '144');
my %to_sme1 = (%source, dest_addr_ton => 1, dest_addr_npi => 1, destination_addr => '155', registered_delivery => 1);
my %to_sme2 = (%to_sme1, destination_addr => '255');

# The message_id of a submit_sm that is answered ESME_ROK; empty if there is none.
sub submitted {
    my ($name, $esme, %message) = @_;
    my $found = answer($esme, $esme->submit_sm(%message));
    my $id = has_status($found, 0) ? $found->{message_id} : '';
    check($name => $id =~ /^\d{10}$/, $id || said($found));
    return $id;
}

# What a query_sm is answered.
sub queried {
    my ($esme, $id, %as) = @_;
    return answer($esme, $esme->query_sm(%source, message_id => $id, %as));
}

sub cancelled {
    my ($esme, $id) = @_;
    return answer($esme, $esme->cancel_sm(%source, message_id => $id));
}

sub has_state {
    my ($pdu, $state) = @_;
    return has_status($pdu, 0) && $pdu->{message_state} == $state;
}

# Binds that are refused, and one that is not.
my (undef, $refused) = bound($port, password => 'pw2');
check(wrong_password => has_status($refused, 0x0e), said($refused));
(undef, $refused) = bound($port, system_id => 'sme3');
check(unknown_system_id => has_status($refused, 0x0f), said($refused));
my ($esme, $bind) = bound($port);
check(bind => has_status($bind, 0) && $bind->{system_id} eq 'CENTRE', said($bind));
check(version => ($bind->{sc_interface_version} // '') eq "\x34", 'no sc_interface_version of 0x34');
my $again = answer($esme, $esme->bind_transceiver(%sme1));
check(bind_twice => has_status($again, 5), said($again));

# A message to the same account, its delivery and its receipt.
my $hello = submitted('submit', $esme, %to_sme1, short_message => 'Hello by Net::SMPP');
my $state = queried($esme, $hello);
check(query => has_state($state, 1) || has_state($state, 2), said($state));
my $found = delivery($esme, is_message('Hello by Net::SMPP'), 10);
check(delivery => $found && $found->{source_addr} eq '144' && $found->{destination_addr} eq '155', 'no deliver_sm');
my $receipt = delivery($esme, is_receipt($hello, 2), 10);
my $layout = qr/^id:$hello sub:001 dlvrd:001 submit date:\d{10} done date:\d{10} stat:DELIVRD err:000 text:Hello by Net::SMPP$/;
check(receipt => $receipt && $receipt->{short_message} =~ $layout, $receipt ? $receipt->{short_message} : 'no receipt');
check(receipt_goes_back => $receipt && $receipt->{source_addr} eq '155' && $receipt->{destination_addr} eq '144', 'other addresses');
$state = queried($esme, $hello);
check(query_delivered => has_state($state, 2) && $state->{final_date} =~ /^\d{15}\+$/, said($state));
$state = queried($esme, $hello, source_addr => '145');
check(query_of_another_source => has_status($state, 0x67), said($state));
$state = queried($esme, '1000199999');
check(query_unknown => has_status($state, 0x0c), said($state));
$state = queried($esme, 'no number');
check(query_of_no_id => has_status($state, 0x0c), said($state));

# A text of 4,096 octets as message_payload both ways, and one octet more; and a part of a concatenated text, with its user data header.
my $long = join '', map { sprintf '%03d,', $_ % 1000 } 0 .. 1023;
my $payload = submitted('submit_of_a_payload', $esme, %to_sme1, short_message => '', message_payload => $long);
$found = delivery($esme, sub { $_[0]{esm_class} == 0 && ($_[0]{message_payload} // '') eq $long }, 10);
check(delivery_of_a_payload => $found && $found->{short_message} eq '', 'no deliver_sm with a message_payload');
$receipt = delivery($esme, is_receipt($payload, 2), 10);
check(receipt_of_a_payload => $receipt && $receipt->{short_message} =~ / text:000,001,002,003,004,$/, $receipt ? $receipt->{short_message} : 'no receipt');
$found = answer($esme, $esme->submit_sm(%to_sme1, short_message => '', message_payload => "$long,"));
check(payload_of_4097_octets => has_status($found, 1), said($found));
my $part = "\x05\x00\x03\x2a\x02\x01first of two";
submitted('submit_of_a_part', $esme, %to_sme1, esm_class => 0x40, short_message => $part);
$found = delivery($esme, sub { $_[0]{esm_class} == 0x40 && $_[0]{short_message} eq $part }, 10);
check(delivery_of_a_part => $found, 'no deliver_sm');

# The same message at another node, and by another account.
if ($other_port) {
    my ($other, $other_bind) = bound($other_port);
    check(bind_at_another_node => has_status($other_bind, 0), said($other_bind));
    $state = queried($other, $hello);
    check(query_at_another_node => has_state($state, 2), said($state));
    my $end = answer($other, $other->unbind);
    check(unbind_at_another_node => has_status($end, 0), said($end));
}
my ($stranger, $stranger_bind) = bound($port, %sme2);
check(bind_of_another_account => has_status($stranger_bind, 0), said($stranger_bind));
$state = queried($stranger, $hello);
check(query_by_another_account => has_status($state, 0x67), said($state));
$state = cancelled($stranger, $hello);
check(cancel_by_another_account => has_status($state, 0x11), said($state));
answer($stranger, $stranger->unbind);

# A transmitter and a receiver, as many ESMEs bind.
my ($sender, $getter) = (connected($port), connected($port));
my $sender_bind = answer($sender, $sender->bind_transmitter(%sme2));
check(bind_transmitter => has_status($sender_bind, 0), said($sender_bind));
my $getter_bind = answer($getter, $getter->bind_receiver(%sme2));
check(bind_receiver => has_status($getter_bind, 0), said($getter_bind));
my $pair = submitted('submit_by_a_transmitter', $sender, %to_sme2, short_message => "Gr\xfc\xdfe", data_coding => 3);
$found = delivery($getter, is_message("Gr\xfc\xdfe"), 10);
check(delivery_to_a_receiver => $found && $found->{data_coding} == 3, 'no deliver_sm');
check(receipt_to_a_receiver => delivery($getter, is_receipt($pair, 2), 10), 'no receipt');
my $early = answer($getter, $getter->submit_sm(%to_sme2, short_message => 'by a receiver'));
check(submit_by_a_receiver => has_status($early, 4), said($early));
answer($_, $_->unbind) for $sender, $getter;

# A message for later, which is cancelled.
my $later = submitted('submit_scheduled', $esme, %to_sme1, schedule_delivery_time => '000000010000000R', short_message => 'later');
my $cancel = cancelled($esme, $later);
check(cancel => has_status($cancel, 0), said($cancel));
check(receipt_deleted => delivery($esme, is_receipt($later, 4), 10), 'no receipt');
$state = queried($esme, $later);
check(query_deleted => has_state($state, 4), said($state));
$cancel = cancelled($esme, $later);
check(cancel_again => has_status($cancel, 0), said($cancel));
$cancel = cancelled($esme, $hello);
check(cancel_delivered => has_status($cancel, 0x11), said($cancel));

# A message that is valid for three seconds, to an account that has no session now; and times that are none.
my $short = submitted('submit_short', $esme, %to_sme2, validity_period => '000000000003000R', short_message => 'soon over');
check(receipt_expired => delivery($esme, is_receipt($short, 3), 12), 'no receipt');
$state = answer($esme, $esme->submit_sm(%to_sme1, validity_period => 'tomorrow', short_message => 'x'));
check(validity_that_is_no_time => has_status($state, 0x62), said($state));
$state = answer($esme, $esme->submit_sm(%to_sme1, schedule_delivery_time => '999999999999999+', short_message => 'x'));
check(schedule_that_is_no_time => has_status($state, 0x61), said($state));

# What the centre does not have.
my %others = (
    data_sm => sub { $esme->data_sm(%to_sme1, message_payload => 'x') },
    replace_sm => sub { $esme->replace_sm(%source, message_id => $hello, short_message => 'x') },
    submit_multi => sub { $esme->submit_multi(%source, destination_addr => '155', short_message => 'x') },
);
for my $name (sort keys %others) {
    my $sequence = eval { $others{$name}->() };
    my $nack = defined $sequence ? answer($esme, $sequence) : undef;
    check("nack_of_$name" => $nack && $nack->{cmd} == Net::SMPP::CMD_generic_nack && $nack->{status} == 3, said($nack) . " $@");
}

my $link = answer($esme, $esme->enquire_link);
check(enquire_link => has_status($link, 0), said($link));
my $end = answer($esme, $esme->unbind);
check(unbind => has_status($end, 0), said($end));
my $octet;
check(closed => IO::Select->new($esme)->can_read(5) && !sysread($esme, $octet, 1), 'the connection stays open after unbind');
print "$checks checks, $wrong wrong\n";
exit($wrong ? 1 : 0);
