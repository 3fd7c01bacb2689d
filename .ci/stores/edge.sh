# The examples for nginx and HAProxy, which `run` sources: the lines of their page, over paths and ports of this run.

# lines LANGUAGE NUMBER: a block of the page
lines() {
    awk -v language="\`\`\`$1" -v number="$2" '$0 == language { found++; inside = found == number; next } /^```/ { inside = 0 } inside' \
        "$top/examples/edge/README.md" | sed "s|/etc/icu_locale|$work/edge|g; s|http://behind|http://127.0.0.1:$behind|; s|127.0.0.1:8080|127.0.0.1:$behind|; s|bind :80|bind 127.0.0.1:$port|"
}

free_port() {
    python3 -c 'import socket; it = socket.socket(); it.bind(("127.0.0.1", 0)); print(it.getsockname()[1])'
}

# asked PATH WORD..: what a path of the proxy gives
asked() {
    curl -s -S --max-time 10 "${@:2}" "http://127.0.0.1:$port$1"
}

# leads WANTED WORD..: where the proxy leads to
leads() {
    same "http://127.0.0.1:$port$1" "$(asked / -o "$work/page" -w '%{redirect_url}' "${@:2}")"
}

redirects() {
    leads /zh-Hant/ -H 'Accept-Language: yue'
    leads /de/ -H 'Accept-Language: fr' -H 'Accept-Language: de-CH;q=0.5'
    leads /en/
    leads /en/ -H "Accept-Language: $(printf 'fr,%.0s' {1..500})"
}

ready() {
    local tries
    for tries in {1..100}; do asked /page -o "$work/page" 2> /dev/null && return; sleep 0.1; done
    cat "$work/edge"/*.log
    return 1
}

# What is behind the proxy says what it was asked for, and that its answer varies.
start_behind() {
    printf '%s\n' "pid $work/edge/behind.pid; error_log $work/edge/behind.log; worker_processes 1; events {}" \
        "http { access_log off; $(for it in client_body proxy fastcgi uwsgi scgi; do printf "${it}_temp_path $work/edge/temp/$it; "; done)" \
        "server { listen 127.0.0.1:$behind; location / { add_header Vary Accept-Language; add_header Cache-Control max-age=600;" \
        'return 200 "for $http_accept_language\n"; } } }' > "$work/edge/behind.conf"
    "${ordinary[@]}" nginx -c "$work/edge/behind.conf"
    echo "kill \$(cat '$work/edge/behind.pid')" > "$work/behind.stop"
}

try_nginx() {
    printf '%s\n' 'load_module /usr/lib/nginx/modules/ndk_http_module.so; load_module /usr/lib/nginx/modules/ngx_http_lua_module.so;' \
        "pid $work/edge/nginx.pid; error_log $work/edge/nginx.log; worker_processes 2; events {}" \
        "http { access_log off; $(for it in client_body proxy fastcgi uwsgi scgi; do printf "${it}_temp_path $work/edge/temp/$it; "; done)" \
        "proxy_cache_path $work/edge/cache keys_zone=pages:4m;" "$(lines nginx 1 | sed "s|\"zh-Hant\"}|&, \"$library/libicu_locale.so.0\"|")" \
        "server { listen 127.0.0.1:$port;" "$(lines nginx 2)" '} }' > "$work/edge/nginx.conf"
    "${ordinary[@]}" nginx -c "$work/edge/nginx.conf"
    echo "kill \$(cat '$work/edge/nginx.pid')" > "$work/nginx.stop"
    ready
    redirects
    same 'for zh-Hant' "$(asked /page -H 'Accept-Language: zh-TW, fr')"
    asked /page -o "$work/page" -D - -H 'Accept-Language: zh-HK;q=0.9' | grep -i '^X-Cache: HIT'
    same 'for zh-Hant' "$(asked /page -H 'Accept-Language: zh-HK;q=0.9')"
    same 'for de' "$(asked /page -H 'Accept-Language: gsw')"
    "${ordinary[@]}" nginx -c "$work/edge/nginx.conf" -s reload
    redirects
    sh "$work/nginx.stop"
    rm "$work/nginx.stop"
}

try_haproxy() {
    cc -O2 -Wall -Wextra -Werror -shared -fPIC -I/usr/include/lua5.3 -I"$library" "$work/edge/icu_locale.c" "$library/libicu_locale.a" \
        -o "$work/edge/icu_locale.so"
    lines lua 1 > "$work/edge/served.lua"
    lines haproxy 1 > "$work/edge/haproxy.cfg"
    "${ordinary[@]}" haproxy -f "$work/edge/haproxy.cfg" -D -p "$work/edge/haproxy.pid" 2> "$work/edge/haproxy.log" || { cat "$work/edge/haproxy.log"; return 1; }
    echo "kill \$(cat '$work/edge/haproxy.pid')" > "$work/haproxy.stop"
    ready
    redirects
    same 'for zh-Hant' "$(asked /page -H 'Accept-Language: zh-TW, fr')"
    same 'for de' "$(asked /page -H 'Accept-Language: gsw')"
    same 'for en' "$(asked /page)"
    sh "$work/haproxy.stop"
    rm "$work/haproxy.stop"
}

try_edge() {
    command -v curl > /dev/null || { lacks edge 'curl, which Debian'"'"'s package curl has'; return; }
    command -v nginx > /dev/null || { lacks edge 'nginx, which Debian'"'"'s package nginx has'; return; }
    cp "$work/tables.json" "$work/supplement.json" "$work/edge"
    mkdir "$work/edge/temp"
    [ "$(id -u)" != 0 ] || chown -R nobody "$work/edge"
    behind="$(free_port)"
    tried 'edge: a server behind' start_behind
    if [ -f /usr/lib/nginx/modules/ngx_http_lua_module.so ] && [ -f "$library/libicu_locale.so.0" ]; then
        port="$(free_port)"
        tried 'edge: nginx' try_nginx
    else
        lacks 'edge: nginx' 'Debian package libnginx-mod-http-lua, or no shared library'
    fi
    if command -v haproxy > /dev/null && [ -f /usr/include/lua5.3/lua.h ]; then
        port="$(free_port)"
        tried 'edge: HAProxy' try_haproxy
    else
        lacks 'edge: HAProxy' 'Debian package haproxy, or no liblua5.3-dev'
    fi
}
