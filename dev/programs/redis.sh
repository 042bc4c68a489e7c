redis-server --port 0 --unixsocket r.sock --save '' > redis.out &
until redis-cli -s r.sock ping > ping.out 2>&1; do sleep 0.2; done
redis-benchmark -s r.sock -n 500 -c 4 -q -t set,get,lpush -d 2048 -r 500 > bench.out 2>&1
redis-cli -s r.sock bgsave
redis-benchmark -s r.sock -n 500 -c 4 -q -t set,get -d 512 >> bench.out 2>&1
sleep 1
redis-cli -s r.sock shutdown nosave
wait
