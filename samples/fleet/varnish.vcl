# Varnish in front of the nodes, in place of nginx: /etc/varnish/default.vcl. TLS ends in front of it.
vcl 4.1;

import directors;

probe ready {
    .request = "GET /health/ready HTTP/1.1" "Host: localhost" "Connection: close";
    .interval = 2s;
    .timeout = 5s;
    .window = 3;
    .threshold = 1;
    .initial = 1;
}
backend one { .host = "127.0.0.1"; .port = "8081"; .connect_timeout = 150ms; .probe = ready; }
backend two { .host = "127.0.0.1"; .port = "8082"; .connect_timeout = 150ms; .probe = ready; }
backend three { .host = "127.0.0.1"; .port = "8083"; .connect_timeout = 150ms; .probe = ready; }

sub vcl_init {
    new nodes = directors.shard();
    nodes.add_backend(one);
    nodes.add_backend(two);
    nodes.add_backend(three);
    nodes.reconfigure();
}

sub vcl_recv {
    # These are for the inside alone: fetches, reloads, counters, and whether a node is well.
    if (req.url ~ "^/(feed|sites|metrics|health)([/?]|$)") {
        return (synth(404));
    }
    # No node reads a cookie, which may say who the reader is.
    unset req.http.Cookie;
    if (req.method == "GET" || req.method == "HEAD") {
        return (hash);
    }
    # A form may send its query as a body.
    if (req.method == "OPTIONS" || (req.method == "POST" && req.url ~ "^/(resolve|go)([?]|$)")) {
        return (pass);
    }
    return (synth(403));
}

sub vcl_backend_fetch {
    # A page has an order of nodes of its own: a request that is sent again goes to the next one.
    set bereq.backend = nodes.backend(by=HASH, alt=bereq.retries);
    # While a node takes in a list, a reader waits 150 ms, and another node answers. The third one has patience. With one
    # node, remove these lines.
    if (bereq.retries < 2 && (bereq.method == "GET" || bereq.method == "HEAD")) {
        set bereq.first_byte_timeout = 150ms;
    } else {
        set bereq.first_byte_timeout = 60s;
    }
}

sub vcl_backend_response {
    # Another node answers for one that starts, or has no memory for the response.
    if (beresp.status == 503 && bereq.retries < 2 && bereq.method != "POST") {
        return (retry);
    }
    # A response is used again for a second. Then Varnish asks whether it has changed.
    set beresp.ttl = 1s;
    set beresp.grace = 0s;
    set beresp.keep = 1h;
}

sub vcl_backend_error {
    if (bereq.retries < 2 && bereq.method != "POST") {
        return (retry);
    }
}
