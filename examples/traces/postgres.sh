# Starts a server of PostgreSQL on DIRECTORY/data, asks it a question, and stops it.
PATH=/usr/lib/postgresql/15/bin:$PATH
pg_ctl -D DIRECTORY/data -o '-k DIRECTORY -c listen_addresses=' -l DIRECTORY/log -w start
psql -h DIRECTORY -c 'select 1' postgres
pg_ctl -D DIRECTORY/data -w stop
