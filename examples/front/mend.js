// Two things that clients send and the server refuses, in the creation of a network: a segment's number as text, and
// `shared` and `router:external` as false from somebody who is no administrator. Everything else is left as it came.

function mendNetwork(network, isAdmin) {
    let changes = 0;
    const number = network['provider:segmentation_id'];
    if (typeof number === 'string' && /^[0-9]{1,8}$/.test(number)) {
        network['provider:segmentation_id'] = Number(number);
        changes += 1;
    }
    ['shared', 'router:external'].forEach((name) => {
        if (!isAdmin && network[name] === false) {
            delete network[name];
            changes += 1;
        }
    });
    return changes;
}

function creation(request) {
    const text = request.variables.request_body || '';
    if (request.method !== 'POST') {
        return text;
    }
    try {
        const body = JSON.parse(text);
        const isAdmin = request.variables.roles.split(',').includes('admin');
        return mendNetwork(body.network, isAdmin) ? JSON.stringify(body) : text;
    } catch (error) {
        return text;
    }
}

export default { creation };
