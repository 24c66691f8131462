UPDATE routers SET gateway_port_id = NULL;
