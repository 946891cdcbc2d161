# Messages and a segment by Perl's own functions: a child waits for a message, and the parent reads what it wrote.
use strict;
use warnings;
use IPC::SysV qw(IPC_PRIVATE IPC_CREAT IPC_RMID IPC_NOWAIT S_IRUSR S_IWUSR);

my $queue = msgget(IPC_PRIVATE, IPC_CREAT | S_IRUSR | S_IWUSR) // die;
my $segment = shmget(IPC_PRIVATE, 100, S_IRUSR | S_IWUSR) // die;
my $child = fork() // die;
if ($child == 0) {
    my $message;
    msgrcv($queue, $message, 20, 3, 0);
    shmwrite($segment, substr($message, length pack("l! a*", 0, "")), 0, 5);
    exit 0;
}
select(undef, undef, undef, 0.2);
msgsnd($queue, pack("l! a*", 3, "hello"), 0);
waitpid($child, 0);
shmread($segment, my $bytes, 0, 5);
msgsnd($queue, pack("l! a*", 4, $bytes), IPC_NOWAIT);
msgrcv($queue, $bytes, 20, 3, IPC_NOWAIT);
msgctl($queue, IPC_RMID, 0);
shmctl($segment, IPC_RMID, 0);
