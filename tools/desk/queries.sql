-- history: all messages on one transfer, in the order of the times that their senders wrote
SELECT created, kind, sender, message_id, recall_id, word, reason,
    CASE WHEN cents IS NOT NULL THEN printf('%d.%02d', cents / 100, cents % 100) END AS amount
FROM message
WHERE bank = :bank AND transfer_id = :transfer
ORDER BY coalesce(strftime('%Y-%m-%d %H:%M:%f', created), created), kind, sender, message_id;

-- waiting: transfers that are PENDING or INVESTIGATED, and were instructed before a time; the oldest first
SELECT message.created, transfer.bank, transfer.transfer_id, transfer.status, message.beneficiary_bank
FROM transfer JOIN message USING (bank, transfer_id)
WHERE transfer.status IN ('PENDING', 'INVESTIGATED') AND message.kind = 'pacs.008'
    AND datetime(message.created) < datetime(:before)
ORDER BY datetime(message.created), transfer.bank, transfer.transfer_id;

-- open_recalls: recalls that are OPEN or CHASED, with their age in whole days on a day; the oldest first
SELECT CAST(julianday(:day) - julianday(date(min(message.created))) AS INTEGER) AS age, recall.bank, recall.transfer_id,
    recall.recall_id, recall.status, message.reason
FROM recall JOIN message USING (bank, transfer_id, recall_id)
WHERE recall.status IN ('OPEN', 'CHASED') AND message.kind = 'camt.056'
GROUP BY recall.bank, recall.transfer_id, recall.recall_id
ORDER BY age DESC, recall.bank, recall.transfer_id, recall.recall_id;

-- contradicted: how many transfers of each bank have which finding
SELECT bank, finding, count(DISTINCT transfer_id) AS many
FROM finding
GROUP BY bank, finding
ORDER BY bank, many DESC, finding;

-- missing: refused lines that name the TxId of a MISSING transfer; one of them may be its instruction
SELECT transfer.bank, transfer.transfer_id, refused.place, refused.fault
FROM transfer JOIN refused ON instr(refused.text, '"' || transfer.transfer_id || '"') > 0
WHERE transfer.status = 'MISSING'
ORDER BY transfer.bank, transfer.transfer_id, refused.place;

-- bank: all transfers of one bank, as originator or as beneficiary, with their statuses and findings
SELECT transfer.bank, transfer.transfer_id, transfer.status, transfer.detail, (
    SELECT group_concat(finding, ' ') FROM (
        SELECT DISTINCT finding FROM finding
        WHERE finding.bank = transfer.bank AND finding.transfer_id = transfer.transfer_id
        ORDER BY finding)) AS findings
FROM transfer
WHERE transfer.bank = :bank OR EXISTS (
    SELECT 1 FROM message
    WHERE message.bank = transfer.bank AND message.transfer_id = transfer.transfer_id AND message.beneficiary_bank = :bank)
ORDER BY transfer.bank, transfer.transfer_id;
