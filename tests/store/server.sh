#!/usr/bin/env bash
# server.sh make|start|stop|crash|kill|up|standby|primary FOLDER: a PostgreSQL server of the tests' own, all of it below
# FOLDER, on a socket there. As root it runs as the user postgres, or nobody. STORE_SETTINGS takes the place of the
# settings below. crash: stopped at once and started again; kill: its first process by SIGKILL, likewise; up: started if
# it is not running; standby and primary: started again as a replica, or not as one.
set -u
folder=$2

# Nothing that is not asked for is flushed in the background, so that what is told too early is lost.
settings='shared_buffers = 16MB
wal_writer_delay = 10s
bgwriter_delay = 10s
autovacuum = off'
bin=${PGBIN:-$(ls -d /usr/lib/postgresql/*/bin 2> /dev/null | sort -V | tail -n 1)}

as() {
  if [ "$(id -u)" -ne 0 ]; then "$@"; else runuser -u "$(id -un postgres 2> /dev/null || echo nobody)" -- "$@"; fi
}
ctl() { (cd / && as "$bin/pg_ctl" -D "$folder/data" -l "$folder/log" -w -t 60 "$@") > /dev/null 2>&1; }
started() { for _ in $(seq 100); do ctl start && return; sleep 0.1; done; tail -n 5 "$folder/log"; return 1; }

case $1 in
  make)
    mkdir -p "$folder" && { [ "$(id -u)" -ne 0 ] || chown "$(id -un postgres 2> /dev/null || echo nobody)" "$folder"; } || exit 1
    (cd / && as "$bin/initdb" -D "$folder/data" -A trust -U store --no-sync --no-locale -E UTF8 ${STORE_INITDB:-}) > "$folder.initdb" 2>&1 ||
      { cat "$folder.initdb"; exit 1; }
    printf '%s\n' "listen_addresses = ''" "unix_socket_directories = '$folder'" 'port = 5499' 'max_connections = 60' 'log_min_messages = panic' \
      "${STORE_SETTINGS-$settings}" | as tee -a "$folder/data/postgresql.conf" > /dev/null
    started ;;
  start) started ;;
  stop) ctl -m fast stop ;;
  crash) ctl -m immediate stop; started ;;
  kill) kill -9 "$(head -n 1 "$folder/data/postmaster.pid")"; started ;;
  up) ctl status || started ;;
  standby) ctl -m fast stop && as touch "$folder/data/standby.signal" && started ;;
  primary) ctl -m fast stop && rm "$folder/data/standby.signal" && started ;;
  *) exit 2 ;;
esac
