mkdir -p www logs
seq 200000 > www/index.html
cat > nginx.conf <<'END'
worker_processes 3; daemon off; pid nginx.pid; error_log logs/error.log;
events { worker_connections 64; }
http { access_log logs/access.log; gzip on; gzip_min_length 1; gzip_types *; aio threads;
  client_body_temp_path t1; proxy_temp_path t2; fastcgi_temp_path t3; uwsgi_temp_path t4; scgi_temp_path t5;
  server { listen 127.0.0.1:7380; root www; } }
END
nginx -p "$PWD" -c "$PWD/nginx.conf" &
until ab -q -n 1 http://127.0.0.1:7380/ > ab.out 2>&1; do sleep 0.2; done
ab -q -n 100 -c 8 -H 'Accept-Encoding: gzip' http://127.0.0.1:7380/ >> ab.out 2>&1
kill -HUP $(cat nginx.pid)
sleep 1
ab -q -n 100 -c 8 http://127.0.0.1:7380/ >> ab.out 2>&1
kill -QUIT $(cat nginx.pid)
wait
