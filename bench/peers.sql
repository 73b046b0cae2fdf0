-- The repository of bench/peers in PostgreSQL. A page of packs has room for changed rows, so that the index stays as it is.
CREATE TABLE pack (code text, serial text, batch text NOT NULL, expiry text NOT NULL, own text NOT NULL, PRIMARY KEY (code, serial)) WITH (fillfactor = 70);
CREATE TABLE audit (moment timestamptz NOT NULL, asker text NOT NULL, word text NOT NULL, code text NOT NULL, serial text NOT NULL, reply text NOT NULL);

CREATE FUNCTION ask(asker text, word text, the_code text, the_serial text) RETURNS text LANGUAGE plpgsql AS $$
DECLARE
    reply text;
BEGIN
    IF word = 'SUPPLY' THEN
        UPDATE pack SET own = 'SUPPLIED' WHERE code = the_code AND serial = the_serial AND own = 'ACTIVE' RETURNING 'DECOMMISSIONED' INTO reply;
    END IF;
    IF reply IS NULL THEN
        SELECT CASE own WHEN 'ACTIVE' THEN 'AUTHENTIC ' || batch || ' ' || expiry || ' VALID' ELSE 'ALERT ' || own || ' FLAGGED' END
            INTO reply FROM pack WHERE code = the_code AND serial = the_serial;
    END IF;
    reply := coalesce(reply, 'ALERT UNKNOWN FLAGGED');
    INSERT INTO audit VALUES (clock_timestamp(), asker, word, the_code, the_serial, reply);
    RETURN reply;
END $$;
