UPDATE floating_ips SET router_id = NULL;
