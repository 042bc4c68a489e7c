folder=$(mktemp -d)
other=
if [ $(id -u) = 0 ]; then chown postgres "$folder"; other='setpriv --reuid postgres --regid postgres --clear-groups'; fi
cd "$folder"
$other initdb -D data -A trust -N > init.out 2>&1
$other postgres -D data -k "$folder" -c listen_addresses= -c min_parallel_table_scan_size=0 -c parallel_setup_cost=0   -c parallel_tuple_cost=0 > postgres.out 2>&1 &
until $other psql -h "$folder" -c 'select 1' postgres > psql.out 2>&1; do sleep 0.2; done
$other pgbench -h "$folder" -i -q postgres > bench.out 2>&1
$other pgbench -h "$folder" -c 6 -j 2 -t 20 postgres >> bench.out 2>&1
$other psql -h "$folder" -c 'select count(*) from pgbench_accounts a join pgbench_accounts b using (aid)' postgres >> psql.out
kill -INT $(head -1 data/postmaster.pid)
wait
rm -rf "$folder"
