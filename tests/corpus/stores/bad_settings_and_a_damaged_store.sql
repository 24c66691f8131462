-- A network whose project is not registered, and nothing else.
DELETE FROM projects;
DELETE FROM security_groups;
DELETE FROM security_group_rules;
