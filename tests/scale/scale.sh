#!/bin/sh
# The recipes of docs/SCALE.md on this machine: GNU parallel over ssh to 127.0.0.1, Slurm with a
# controller and two daemons, and Dask with two workers of which one is killed. 5,000 stations each.
# Not part of the gate: it needs Debian's openssh-server, parallel, slurm-wlm, munge and
# python3-distributed, and reports what it skips.
# usage: tests/scale/scale.sh PROGRAM [parallel|slurm|dask]
set -u
program=$(readlink -f "$1")
only=${2:-}
here=$(dirname "$(readlink -f "$0")")
work=$(mktemp -d)
passed=0
failed=0
started=
# stop: ends what this run started
stop() {
    for process in $started; do kill "$process"; done 2> /dev/null
    wait
    rm -rf "$work"
}
trap stop EXIT
trap 'exit 1' HUP INT TERM
chmod 755 "$work"
cd "$work" || exit 1
mkdir bin
ln -s "$program" bin/flutejoin
PATH=$work/bin:$here/../../examples:$PATH:/usr/sbin

# check NAME COMMAND..: the command must succeed
check() {
    name=$1
    shift
    if "$@" > told 2>&1; then
        passed=$((passed + 1))
    else
        failed=$((failed + 1))
        echo "scale: $name: $(tail -c 400 told)"
    fi
}
skipped() { echo "scale: skipped: $1, since there is no $2"; }
has() {
    for command in "$@"; do
        command -v "$command" > told || return 1
    done
}
# begin COMMAND..: starts a command that runs until the end
begin() {
    "$@" > "$work/${1##*/}.log" 2>&1 &
    started="$started $!"
}
until_true() {
    for _ in $(seq 100); do
        "$@" > waited 2>&1 && return
        sleep 0.2
    done
}
fails() { ! "$@"; }
wanted() { [ "${only:-$1}" = "$1" ]; }
free_port() {
    python3 -c 'from socket import create_server as serve
print(serve(("127.0.0.1", 0)).getsockname()[1])'
}

awk 'BEGIN { for (i = 1; i <= 5000; i++) printf "%07d\n", i }' > file
flutejoin carousel -o sent --tsi 7 --toi 1 --symbol 1000 --block 16 file > told
python3 "$here/../../examples/stations.py" sent 'the stations' 5000 99
ls -d 'the stations'/* > list
check 'on this machine' reduce.sh list once xargs -d '\n' -n 1 -P 4 sh -c
cp "$(sed -n 3000p list)" kept

# engine NAME COMMAND..: runs the command on the list, on a group that fails, and on no inputs
engine() {
    engine=$1
    shift
    begun=$(date +%s%N)
    check "$engine: 5,000 stations" reduce.sh list all "$@"
    echo "scale: $engine: $((($(date +%s%N) - begun) / 1000000)) ms"
    check "$engine: the same bytes" cmp once all
    echo 'no journal' > "$(sed -n 3000p list)"
    check "$engine: a group that fails" fails reduce.sh list all "$@"
    check "$engine: then all stays" cmp once all
    cp kept "$(sed -n 3000p list)"
    head -n 70 list > short
    check "$engine: 70 stations" reduce.sh short few "$@"
    : > empty
    check "$engine: no inputs" fails reduce.sh empty all "$@"
}

if ! wanted parallel; then
    :
elif has parallel sshd ssh-keygen; then
    port=$(free_port)
    mkdir -p /run/sshd
    mkdir -m 700 ssh
    ssh-keygen -q -t ed25519 -N '' -f ssh/host
    ssh-keygen -q -t ed25519 -N '' -f ssh/key
    cp ssh/key.pub ssh/known
    cat > ssh/sshd << END
Port $port
ListenAddress 127.0.0.1
HostKey $work/ssh/host
AuthorizedKeysFile $work/ssh/known
StrictModes no
PermitRootLogin yes
UsePAM no
PidFile none
MaxStartups 100
SetEnv PATH=$PATH
END
    begin "$(command -v sshd)" -D -e -f "$work/ssh/sshd"
    login="ssh -p $port -i $work/ssh/key -o StrictHostKeyChecking=no"
    login="$login -o UserKnownHostsFile=$work/ssh/hosts -o LogLevel=ERROR 127.0.0.1"
    until_true $login true
    printf '2/%s\n' "$login" > hosts
    engine parallel parallel --sshloginfile hosts --workdir . --halt now,fail=1
else
    skipped parallel 'parallel or sshd'
fi

if ! wanted slurm; then
    :
elif has slurmctld slurmd sbatch munged; then
    mkdir -m 755 slurm slurm/state munge
    head -c 1024 /dev/urandom > munge/key
    chmod 400 munge/key
    chmod 711 munge
    me=$(id -un)
    begin munged -F --key-file="$work/munge/key" --socket="$work/munge/socket" --force \
        --pid-file="$work/munge/pid" --seed-file="$work/munge/seed" --log-file="$work/munge/log"
    first=$(free_port) second=$(free_port) control=$(free_port)
    cat > slurm/slurm.conf << END
ClusterName=scale
SlurmctldHost=$(hostname)(127.0.0.1)
SlurmctldPort=$control
SlurmUser=$me
SlurmdUser=$me
AuthType=auth/munge
AuthInfo=socket=$work/munge/socket
StateSaveLocation=$work/slurm/state
SlurmdSpoolDir=$work/slurm/%n
SlurmctldPidFile=$work/slurm/control.pid
SlurmdPidFile=$work/slurm/%n.pid
SlurmctldLogFile=$work/slurm/control.log
SlurmdLogFile=$work/slurm/%n.log
ProctrackType=proctrack/pgid
TaskPlugin=task/none
SelectType=select/cons_tres
SelectTypeParameters=CR_CPU
ReturnToService=2
NodeName=one NodeHostname=$(hostname) NodeAddr=127.0.0.1 Port=$first CPUs=2 State=UNKNOWN
NodeName=two NodeHostname=$(hostname) NodeAddr=127.0.0.1 Port=$second CPUs=2 State=UNKNOWN
PartitionName=all Nodes=one,two Default=YES MaxTime=INFINITE State=UP
END
    SLURM_CONF=$work/slurm/slurm.conf
    export SLURM_CONF
    begin slurmctld -D
    begin slurmd -D -N one
    begin slurmd -D -N two
    until_true sh -c 'sinfo -h -o %T | grep -q idle'
    engine slurm slurm.sh
    # Jobs are killed while they run, and submitted again
    mkdir slow
    printf '#!/bin/sh\nsleep 2\nexec %s "$@"\n' "$program" > slow/flutejoin
    chmod 755 slow slow/flutejoin
    mv few few_before
    (until_true sh -c 'squeue -h -t RUNNING | grep -q .'; scancel --state=RUNNING --me) &
    check 'slurm: killed jobs' fails env PATH="$work/slow:$PATH" reduce.sh short few slurm.sh
    check 'slurm: killed jobs: nothing is made' test ! -e few
    check 'slurm: behind killed jobs' reduce.sh short few slurm.sh
    check 'slurm: behind killed jobs, the same bytes' cmp few_before few
    check 'slurm: nothing is left' test -z "$(find . -maxdepth 1 -name 'slurm[.-]*')"
    check 'slurm: behind killed jobs, the same bytes' cmp once all
else
    skipped slurm slurm-wlm
fi

if ! wanted dask; then
    :
elif has dask-scheduler && /usr/bin/python3 -c 'import distributed' 2> told; then
    port=$(free_port)
    begin dask-scheduler --host 127.0.0.1 --port "$port" --no-dashboard
    for _ in 1 2; do
        begin dask-worker "tcp://127.0.0.1:$port" --nthreads 2 --no-nanny --no-dashboard \
            --local-directory "$work/dask"
    done
    worker=$!
    engine dask join_on_dask.py "tcp://127.0.0.1:$port"
    (sleep 1.5; kill -KILL "$worker") &
    check 'dask: a worker killed' \
        reduce.sh list all join_on_dask.py "tcp://127.0.0.1:$port"
    check 'dask: a worker killed, the same bytes' cmp once all
else
    skipped dask python3-distributed
fi

echo "scale: $passed passed, $failed failed"
[ "$failed" = 0 ]
