-- Questions to which the office has no route, asked of a copy of its file. Each prints a table:
--
--     sqlite3 -readonly -box COPY <examples/asking.sql
--
-- The last two are about an accession, and about a number of days from a day on; otherwise about none, and 90 days from
-- today on:
--
--     sqlite3 -readonly -box -cmd ".parameter set :accession \"'A-1'\"" COPY <examples/asking.sql
--     sqlite3 -readonly -box -cmd ".parameter set :day \"'2024-03-01'\"" \
--         -cmd ".parameter set :within 365" COPY <examples/asking.sql
.headers on
.parameter init
INSERT OR IGNORE INTO temp.sqlite_parameters
VALUES (':accession', ''), (':day', date('now', 'localtime')), (':within', 90);

.print -- the callers of the policy in force, with their roles
SELECT name AS caller, role FROM caller ORDER BY name;

.print -- the rules of the policy in force, with their numbers; some count on certain days only
SELECT place AS rule, iif(effect = 1, 'allow', 'deny') AS effect, role, action, collection, class,
    iif(first = -25567, NULL, date(first * 86400, 'unixepoch')) AS first,
    iif(last = 2859848, NULL, date(last * 86400, 'unixepoch')) AS last
FROM rule_5 ORDER BY place;

.print -- the classes, with how many deposits each has
SELECT class.name AS class, iif(years = -1, 'permanent', years) AS years, count(number) - count(gone) AS kept,
    count(gone) AS destroyed
FROM class LEFT JOIN deposit ON deposit.class = class.name GROUP BY class.name ORDER BY class.name;

.print -- the collections, with how many deposits each has
SELECT collection.name AS collection, count(number) - count(gone) AS kept, count(gone) AS destroyed
FROM collection LEFT JOIN deposit ON deposit.collection = collection.name
GROUP BY collection.name ORDER BY collection.name;

.print -- the holds, live ones first, with how many kept deposits each covers, or would if it weren't released
WITH of_collection AS MATERIALIZED
        (SELECT collection AS name, count(*) AS kept FROM deposit WHERE gone IS NULL GROUP BY collection),
    of_class AS MATERIALIZED (SELECT class AS name, count(*) AS kept FROM deposit WHERE gone IS NULL GROUP BY class)
SELECT number AS hold, iif(released IS NULL, 'live', 'released') AS state,
    CASE WHEN deposit IS NOT NULL THEN 'deposit' WHEN collection IS NOT NULL THEN 'collection' ELSE 'class' END AS "on",
    coalesce(deposit, collection, class) AS name, matter, date(placed * 86400, 'unixepoch') AS placed,
    date(released * 86400, 'unixepoch') AS released,
    coalesce((SELECT gone IS NULL FROM deposit AS it WHERE it.number = hold_4.deposit),
        (SELECT kept FROM of_collection WHERE name = hold_4.collection),
        (SELECT kept FROM of_class WHERE name = hold_4.class), 0) AS covers
FROM hold_4 ORDER BY released IS NOT NULL, number;

.print -- the destroyed deposits, by day
SELECT date(gone * 86400, 'unixepoch') AS destroyed, number AS deposit, accession, collection, class,
    date(closed * 86400, 'unixepoch') AS closed, date(deposited * 86400, 'unixepoch') AS deposited, files, bytes
FROM deposit WHERE gone IS NOT NULL ORDER BY gone, number;

.print -- the deposit with the accession :accession
SELECT number AS deposit, accession, collection, class, date(closed * 86400, 'unixepoch') AS closed,
    date(deposited * 86400, 'unixepoch') AS deposited, files, bytes,
    iif(due IS NULL, 'permanent', date(due * 86400, 'unixepoch')) AS due, date(gone * 86400, 'unixepoch') AS destroyed
FROM deposit WHERE accession = :accession;

.print -- what is due by the day that is :within days after :day, with the live holds over each deposit
SELECT date(due * 86400, 'unixepoch') AS due, number AS deposit, accession, collection, class,
    (SELECT group_concat(number, ' ') FROM (SELECT number FROM hold_4 WHERE released IS NULL AND
        (hold_4.deposit = it.number OR hold_4.collection = it.collection OR hold_4.class = it.class)
        ORDER BY number)) AS holds
FROM deposit AS it
WHERE gone IS NULL AND due <= unixepoch(:day) / 86400 + :within ORDER BY it.due, number;
