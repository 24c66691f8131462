-- A router with a route to a next hop in no subnet.
UPDATE routers SET routes = '[{"destination":"203.0.113.0/24","nexthop":"10.0.0.9"}]'
    WHERE name = 'spare';
