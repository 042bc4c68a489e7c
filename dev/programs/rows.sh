echo 'pragma mmap_size=99999999; create table t(a); begin;'
seq 100000 | sed 's/.*/insert into t values(&);/'
echo 'commit; select max(a) from t;'
