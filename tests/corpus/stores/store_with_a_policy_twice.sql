-- A second policy that makes the network external to all.
UPDATE rbac_policies SET target_tenant = '*' WHERE target_tenant = 'b';
