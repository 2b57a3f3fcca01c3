#!/bin/sh
# Runs a command beside Slurm's daemons on this machine alone, and stops them afterwards. It needs the Debian packages
# slurmctld, slurmd, slurm-client and munge, and is run as root.
set -u
work=$(mktemp -d) || exit 1

stop() {
    for daemon in slurmd slurmctld munged; do
        [ -f "$work/$daemon.pid" ] || continue
        number=$(cat "$work/$daemon.pid")
        kill "$number"
        tries=0
        while [ -f "$work/$daemon.pid" ] && kill -0 "$number" 2> /dev/null && [ "$tries" -lt 50 ]; do
            sleep 0.1
            tries=$((tries + 1))
        done
    done
    rm -rf "$work"
}

give_up() {
    echo "slurm_alone: Slurm did not begin: $(cat "$work"/*.log 2> /dev/null | tail -n 1)" >&2
    exit 1
}

trap stop EXIT
trap 'exit 130' INT HUP TERM
chmod 755 "$work"
dd if=/dev/urandom of="$work/key" bs=1024 count=1 2> /dev/null
chmod 400 "$work/key"
name=$(hostname -s)
mkdir "$work/state" "$work/spool"
cat > "$work/slurm.conf" <<END
ClusterName=alone
SlurmctldHost=$name(127.0.0.1)
SlurmctldPort=16817
SlurmdPort=16818
SlurmUser=root
SlurmdUser=root
AuthType=auth/munge
AuthInfo=socket=$work/munge.socket
CredType=cred/munge
StateSaveLocation=$work/state
SlurmdSpoolDir=$work/spool
SlurmctldPidFile=$work/slurmctld.pid
SlurmdPidFile=$work/slurmd.pid
SlurmctldLogFile=$work/slurmctld.log
SlurmdLogFile=$work/slurmd.log
ProctrackType=proctrack/linuxproc
TaskPlugin=task/none
JobAcctGatherType=jobacct_gather/none
AccountingStorageType=accounting_storage/none
SelectType=select/cons_tres
SelectTypeParameters=CR_Core
MpiDefault=none
ReturnToService=2
SlurmdParameters=config_overrides
NodeName=$name NodeAddr=127.0.0.1 CPUs=$(nproc) State=UNKNOWN
PartitionName=all Nodes=$name Default=YES MaxTime=INFINITE State=UP
END
echo 'CgroupPlugin=cgroup/v1' > "$work/cgroup.conf"
export SLURM_CONF="$work/slurm.conf"
PATH=$PATH:/usr/sbin
munged --force --key-file="$work/key" --socket="$work/munge.socket" --pid-file="$work/munged.pid" \
    --log-file="$work/munged.log" --seed-file="$work/seed" || give_up
slurmctld 2> "$work/said.log" || give_up
slurmd -N "$name" 2> "$work/said.log" || give_up
tries=0
until sinfo -h -o %T 2> /dev/null | grep -q idle; do
    [ "$tries" -lt 60 ] || give_up
    sleep 0.5
    tries=$((tries + 1))
done
"$@"
