# The servers that `run` can have, for `run` to source. Each has a name, and a folder $work/NAME with what it keeps: the
# commands of its version stand in bin/, before all others on the path, and `server` is one.
#
# mariadb is what is installed, or Debian's package, by apt-get. mysql and mariadb-sid are MySQL 9.7 and MariaDB 11.8 of
# Debian's sid. They need sid's C library, so each stands in a root of its own, made by debootstrap, of which nothing is
# run but by its own loader: files and sockets keep their names, no root is entered, and no file of one is written.
#
# A function that fails has said why in $why.

quick='-o Acquire::Retries=0 -o Acquire::http::Timeout=20 -o Acquire::https::Timeout=20 -o DPkg::Lock::Timeout=120'

is_root() {
    [ "$(id -u)" -eq 0 ]
}

# Installs packages: install_packages COMMAND PACKAGE.. does so if the command is missing.
install_packages() {
    command=$1
    shift
    has "$command" && return
    why="$command is missing, and only root can install it"
    is_root || return
    why="$command is missing, and so is apt-get"
    has apt-get || return
    echo "server: installing $* by apt-get"
    export DEBIAN_FRONTEND=noninteractive
    { timeout 60 apt-get $quick update && timeout 180 apt-get $quick install -y --no-install-recommends "$@"; } \
        >"$work/apt.log" 2>&1 || true
    why="$command is missing, and apt-get can't install it: $(tail -n 1 "$work/apt.log")"
    has "$command"
}

# Makes a root of sid with packages in it, if it doesn't stand: make_root NAME PACKAGES
make_root() {
    root=$roots/$1
    [ ! -d "$root" ] || return 0
    why="only root can make the root $root by debootstrap"
    is_root || return
    install_packages debootstrap debootstrap || return
    echo "server: making $root by debootstrap"
    why="debootstrap can't make $root"
    mkdir -p "$roots"
    new=$(mktemp -d "$roots/.$1.XXXXXX") || return
    if ! timeout 900 debootstrap --variant=minbase --include="$2" sid "$new" >"$work/debootstrap.log" 2>&1; then
        tail -n 3 "$work/debootstrap.log"
        rm -rf --one-file-system "$new"
        return 1
    fi
    chmod 755 "$new"
    mv -T "$new" "$root"
}

# Writes a command into the folder of the server: write_command NAME WORD..
write_command() {
    file=$place/bin/$1
    shift
    {
        echo '#!/bin/sh'
        printf 'exec'
        printf " '%s'" "$@"
        echo ' "$@"'
    } >"$file"
    chmod 755 "$file"
}

# The same for a program of the root: write_rooted NAME PROGRAM WORD..
write_rooted() {
    command=$1
    program=$root/usr/$2
    shift 2
    why="$program is missing"
    [ -x "$program" ] || return
    set -- --library-path "$root/usr/lib/x86_64-linux-gnu" "$program" "$@"
    write_command "$command" "$root"/lib64/ld-linux-*.so.* "$@"
}

# Has the commands of a server: have_server NAME
have_server() {
    place=$work/$1
    mkdir -p "$place/bin"
    case $1 in
    mariadb)
        for command in mariadbd mariadb-install-db mariadb; do
            install_packages "$command" mariadb-server-core mariadb-client-core || return
        done
        write_command server mariadbd --no-defaults
        ;;
    mysql)
        make_root mysql-sid mysql-server-core,mysql-client-core &&
            write_rooted mysql bin/mysql &&
            write_rooted mysqlbinlog bin/mysqlbinlog &&
            write_rooted mysqldump bin/mysqldump &&
            write_rooted server sbin/mysqld --no-defaults "--basedir=$root/usr" --mysqlx=OFF --secure-file-priv=
        ;;
    mariadb-sid)
        make_root mariadb-sid mariadb-server-core,mariadb-client-core &&
            write_rooted mariadb bin/mariadb &&
            write_rooted server sbin/mariadbd --no-defaults "--basedir=$root/usr" \
                "--lc-messages-dir=$root/usr/share/mariadb"
        ;;
    *)
        why="there is no server of this name"
        return 1
        ;;
    esac
}

# What makes MariaDB's own tables, as its mariadb-install-db has it.
own_tables() {
    printf '%s\n' 'use mysql;' 'SET @auth_root_socket=NULL;'
    for part in system_tables performance_tables system_tables_data; do
        cat "$root/usr/share/mariadb/mariadb_$part.sql"
    done
    cat "$root/usr/share/mariadb/maria_add_gis_sp_bootstrap.sql" "$root/usr/share/mariadb/mariadb_sys_schema.sql"
}

# Makes the data folders of both servers: for nobody if this is root, since a server refuses to be root.
make_data() {
    user=
    mkdir "$place/server" "$place/second"
    if is_root; then
        user=--user=nobody
        chmod 711 "$work"
        chown nobody "$place/server" "$place/second"
    fi
    data=$place/server/data
    case $1 in
    mariadb)
        mariadb-install-db --no-defaults $user --datadir="$data" --skip-test-db \
            --auth-root-authentication-method=normal
        ;;
    mysql) "$place/bin/server" $user --datadir="$data" --initialize-insecure ;;
    mariadb-sid)
        mkdir -p "$data/mysql"
        if is_root; then chown -R nobody "$data"; fi
        own_tables | "$place/bin/server" $user --datadir="$data" --bootstrap --max-allowed-packet=8M
        ;;
    esac >"$place/install.log" 2>&1 || { cannot "make a data folder" "$place/install.log"; return; }
    cp -Rp "$data" "$place/second/data"
    # A server of MySQL makes another name for itself.
    rm -f "$place/second/data/auto.cnf"
}

# Starts a server in a folder, with options of its own.
start_server() {
    folder=$place/$1
    shift
    "$place/bin/server" $user --datadir="$folder/data" --socket="$folder/socket" \
        --pid-file="$folder/pid" --skip-networking --default-time-zone=+00:00 \
        --innodb-flush-log-at-trx-commit=0 --innodb-buffer-pool-size=32M "$@" >"$folder.log" 2>&1 &
    servers="$servers $!"
    for _ in $(seq 600); do
        [ ! -S "$folder/socket" ] || return 0
        kill -0 "$!" 2>/dev/null || break
        sleep 0.1
    done
    cannot "be started" "$folder.log"
}

# Starts both: the first has a performance_schema, where tests ask what it was sent. The second has a binary log and
# ignores the client's character set, for which MySQL has no option.
start_servers() {
    set -- "$1" server --character-set-server=utf8mb4 --performance-schema=ON
    case $1 in
    mysql)
        shift
        start_server "$@" --skip-log-bin --federated "--innodb-directories=$place/server" &&
            start_server second --log-bin=log --binlog-format=STATEMENT --server-id=1 "--innodb-directories=$place/second"
        ;;
    *)
        shift
        start_server "$@" && start_server second --skip-character-set-client-handshake --character-set-server=gbk \
            --log-bin=log --binlog-format=STATEMENT --server-id=1 --relay-log=relay --skip-slave-start
        ;;
    esac
}

# The server can't be had here, which is no fault of what is tested.
cannot() {
    tail -n 20 "$2"
    why="it can't $1 here"
    return 1
}
