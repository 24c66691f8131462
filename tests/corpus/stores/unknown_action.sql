UPDATE rbac_policies SET action = 'access_as_owner';
