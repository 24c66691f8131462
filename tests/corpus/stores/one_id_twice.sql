DROP TABLE rbac_policies;
CREATE TABLE rbac_policies (place INTEGER PRIMARY KEY, id TEXT, project_id TEXT, object_id TEXT,
    action TEXT, target_tenant TEXT) STRICT;
INSERT INTO rbac_policies (id, project_id, object_id, action, target_tenant) VALUES
    ('00000001-0000-8000-8000-000000000007', 'a', '00000001-0000-8000-8000-000000000006',
    'access_as_external', '*'),
    ('00000001-0000-8000-8000-000000000007', 'a', '00000001-0000-8000-8000-000000000006',
    'access_as_external', 'b');
