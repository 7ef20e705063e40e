-- What host.sh asks a server. An error doesn't end it.
\set VERBOSITY terse
CREATE OR REPLACE FUNCTION unpack(text) RETURNS text AS :library LANGUAGE C STRICT;
SELECT '3a1b10c: ' || unpack('3a1b10c');
SELECT '99999999a: ' || unpack('99999999a');
SELECT '1o1k: ' || unpack('1o1k');
SET statement_timeout = '100ms';
SELECT count(unpack(repeat('0', 100000) || '1a')) FROM (SELECT generate_series(1, 1000000000)) AS rows;
SELECT 'after a timeout: ' || unpack('1o1k');
