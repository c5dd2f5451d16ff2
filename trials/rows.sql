-- Every row of an office: a line each, with the table's name first, paths, contents and marks in
-- hexadecimal digits. A file is shown with the bytes of its content.
.mode list
SELECT 'office', id, version, max_deposits, max_holds FROM office ORDER BY id;
SELECT 'caller', name, role FROM caller ORDER BY name;
SELECT 'rule', place, effect, role, action, collection, class, first, last FROM rule_5 ORDER BY place;
SELECT 'class', name, years FROM class ORDER BY name;
SELECT 'collection', name FROM collection ORDER BY name;
SELECT 'deposit', number, accession, collection, class, closed, deposited, files, bytes, gone, due, holds
  FROM deposit ORDER BY number;
-- The one long content is told from every other.
SELECT 'file', deposit, hex(path),
    CASE WHEN content.bytes = CAST(replace(hex(zeroblob(20000)), '00', 'abcde') AS BLOB)
    THEN 'abcde 20000 times' ELSE hex(content.bytes) END
  FROM file JOIN content ON content.id = file.content ORDER BY deposit, path;
SELECT 'hold', number, deposit, collection, class, matter, placed, released FROM hold_4 ORDER BY number;
-- Tables that hold no row any more.
SELECT 'emptied', (SELECT count(*) FROM rule), (SELECT count(*) FROM hold);
SELECT 'content', id, hex(mark), size FROM content ORDER BY id;
