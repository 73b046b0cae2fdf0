#!lua name=peers
-- The repository of bench/peers in Redis: a hash for each pack, and a list of audit rows.
redis.register_function('ask', function(keys, words)
    local found = redis.call('HMGET', keys[1], 'batch', 'expiry', 'own')
    local batch, expiry, own, reply = found[1], found[2], found[3]
    if own ~= 'ACTIVE' then
        reply = 'ALERT ' .. (own or 'UNKNOWN') .. ' FLAGGED'
    elseif words[2] == 'SUPPLY' then
        redis.call('HSET', keys[1], 'own', 'SUPPLIED')
        reply = 'DECOMMISSIONED'
    else
        reply = 'AUTHENTIC ' .. batch .. ' ' .. expiry .. ' VALID'
    end
    redis.call('RPUSH', 'audit', table.concat({redis.call('TIME')[1], words[1], words[2], keys[1], reply}, ' '))
    return redis.status_reply(reply)
end)
