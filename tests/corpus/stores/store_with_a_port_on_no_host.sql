-- A port bound to a host that is not there.
UPDATE ports SET host_id = 'c9', vif_type = 'ovs' WHERE name = 'spare';
