UPDATE ports SET mac_address = 'fa:16:3e:00:00';
