# Sourced by the scripts of this folder: nginx and Caddy in front of offices, each with its file of `examples/`, into
# which other ports, names and folders are put. The script that sources this one sets `top`, and has sourced needs.sh,
# cases.sh and processes.sh.
# shellcheck shell=bash disable=SC2154,SC2034,SC2016

# What a script may set: the users of each office that has no file of users yet; the password of all; and a script of
# `sed`, which is applied to the file of `examples/` first (so a control removes the lines that help).
users=(anna)
password=Sesame-4711
edit=
# The proxy that is tried.
proxy=

# Ends the script, and says at which proxy.
fail() {
    echo "${proxy:+$proxy: }$1" >&2
    exit 1
}

# What the proxies need in a folder: a certificate, `office.crt`, and a folder `logs`.
proxies_in() {
    needs nginx caddy openssl curl python3
    page=$(free_port)
    mkdir -p "$1/nginx" "$1/caddy" "$1/logs"
    if [ "$(id -u)" -eq 0 ]; then
        # (nginx's workers are another user, who may pass through the folder, and whose log this is)
        chmod 711 "$1"
        chmod 2751 "$1/logs"
        touch "$1/logs/nginx.log"
        chown www-data "$1/logs/nginx.log"
    fi
    [ -e "$1/office.crt" ] || openssl req -x509 -newkey rsa:2048 -nodes -days 2 -subj /CN=localhost \
        -addext subjectAltName=DNS:localhost -keyout "$1/office.key" -out "$1/office.crt" 2>/dev/null
}

# The line of one user in a file of users: of nginx, and of Caddy (whose hash takes a second: it is made once).
nginx_user() {
    printf '%s:%s\n' "$1" "$(openssl passwd -apr1 "$password")"
}
caddy_user() {
    [ -n "${hash-}" ] || hash=$(caddy hash-password --plaintext "$password")
    printf '%s %s\n' "$1" "$hash"
}

# Starts nginx in a folder: `start_nginx FOLDER PORT` in front of one office, `start_nginx FOLDER 2024=PORT 2025=PORT`
# in front of several, each with its prefix. Sets `https`, its port, `server`, its process, `log`, its log, and `page`,
# the port of its status page. `FOLDER/NAME.closed` is the file that closes an office.
start_nginx() {
    local in=$1 each several="" office ports="" user
    shift
    proxies_in "$in"
    https=$(free_port)
    log=$in/logs/nginx.log
    for each in "$@"; do
        office=office
        case $each in
        *=*)
            office=${each%=*}
            several='s/^( *)#(.*)$/\1\2/; /^ *default +(office|\$request_uri);/d'
            ;;
        esac
        ports+="s/^( *)$office +[0-9]+;/\1$office ${each#*=};/;"
        if [ ! -e "$in/nginx/$office.users" ]; then
            for user in "${users[@]}"; do nginx_user "$user"; done >"$in/nginx/$office.users"
        fi
    done
    # (only the maps of the offices, which come first, have lines with a `#` to remove)
    sed -E "$edit" "$top/examples/nginx.conf" |
        sed -E -e "1,/^# ---- errors/{
            /^map/,/^}/{
                $several
                $ports
            }
        }" -e "s|listen 443 ssl|listen 127.0.0.1:$https ssl|; s|/etc/nginx/office\.(crt\|key)|$in/office.\1|" \
            -e "s|/etc/nginx|$in/nginx|; s|/var/log/depot/access|$in/logs/nginx|; s|/run/depot|$in|; s|:8079|:$page|" \
            -e "s|https://office.example.org|https://localhost:$https|; s|office.example.org|localhost|" \
            >"$in/nginx/site.conf"
    cat >"$in/nginx/nginx.conf" <<END
worker_processes 2;
pid $in/nginx/pid;
error_log $in/logs/nginx.errors;
daemon off;
events { worker_connections 4096; }
http {
    client_body_temp_path $in/nginx/bodies;
    proxy_temp_path $in/nginx/answers;
    fastcgi_temp_path $in/nginx/fastcgi;
    uwsgi_temp_path $in/nginx/uwsgi;
    scgi_temp_path $in/nginx/scgi;
    include $in/nginx/site.conf;
}
END
    [ "$(id -u)" -ne 0 ] || sed -i '1i user www-data;' "$in/nginx/nginx.conf"
    PATH=$PATH:/usr/sbin nginx -p "$in/nginx" -c "$in/nginx/nginx.conf" 2>>"$in/logs/nginx.said" &
    server=$!
    answers "$in/logs/nginx.said"
}

# Starts Caddy in the same way. Its configuration is `caddy/Caddyfile` in the folder: `reload_caddy FOLDER` reads it
# anew.
start_caddy() {
    local in=$1 each several="" office edits="" user tls
    shift
    proxies_in "$in"
    https=$(free_port)
    log=$in/logs/caddy.log
    for each in "$@"; do
        office=office
        case $each in *=*) office=${each%=*} several=yes ;; esac
        edits+="s/import office $office [0-9]+\$/import office $office ${each#*=}/;"
        if [ ! -e "$in/caddy/$office.users" ]; then
            for user in "${users[@]}"; do caddy_user "$user"; done >"$in/caddy/$office.users"
        fi
    done
    # (the certificate of this script, and no port for HTTP)
    tls="tls $in/office.crt $in/office.key"
    sed -E "$edit" "$top/examples/Caddyfile" | awk -v several="$several" -v in_="$in" '
            /^\{$/ {
                print
                print "\tadmin unix/" in_ "/caddy/admin\n\tauto_https off\n\tstorage file_system " in_ "/caddy"
                next
            }
            several && /^\t#(@20|handle|\t|})/ { sub("#", ""); print; next }
            several && /^\thandle \{$/ { is_one = 1 }
            is_one { is_one = $0 != "\t}"; next }
            { print }' |
        sed -E -e "$edits" -e "s|https://office.example.org|https://localhost:$https|; s|/etc/caddy|$in/caddy|" \
            -e "s|/var/log/depot/access|$in/logs/caddy|; s|/run/depot|$in|; s|:8079|:$page|" \
            -e "s|^office.example.org \{|https://localhost:$https {\n\tbind 127.0.0.1\n\t$tls|" \
            >"$in/caddy/Caddyfile"
    HOME=$in/caddy caddy run --config "$in/caddy/Caddyfile" --adapter caddyfile >>"$in/logs/caddy.said" 2>&1 &
    server=$!
    answers "$in/logs/caddy.said"
}

reload_caddy() {
    HOME=$1/caddy caddy reload --address "unix/$1/caddy/admin" --config "$1/caddy/Caddyfile" --adapter caddyfile \
        2>"$1/caddy/reloaded"
}

# Waits until the proxy answers.
answers() {
    local end=$((SECONDS + 30))
    until curl -sk -o /dev/null "https://localhost:$https/due"; do
        if ! kill -0 "$server" 2>/dev/null || [ "$SECONDS" -ge "$end" ]; then
            echo "a proxy doesn't answer: $(tail -n 5 "$1")" >&2
            return 1
        fi
        sleep 0.1
    done
}

# Ends the proxy.
stop_proxy() {
    end_process "$server"
}
