/* Prints what the library says of its sizes, as definitions for a compiler's command line: -DSEALWAX_SAID_GATEWAY=.. and so on. */
#include "sealwax.h"
#include <stdio.h>

int main(void) {
    sealwax_sizes_result said = sealwax_sizes();
    printf("-DSEALWAX_SAID_GATEWAY=%zu\n", said.gateway);
    printf("-DSEALWAX_SAID_OUTCOME=%zu\n", said.outcome);
    printf("-DSEALWAX_SAID_SETUP=%zu\n", said.setup);
    printf("-DSEALWAX_SAID_ADMIT=%zu\n", said.admit);
    printf("-DSEALWAX_SAID_OPEN=%zu\n", said.open);
    printf("-DSEALWAX_SAID_RESPOND=%zu\n", said.respond);
    printf("-DSEALWAX_SAID_REPORT=%zu\n", said.report);
    printf("-DSEALWAX_SAID_CHECK=%zu\n", said.check);
    printf("-DSEALWAX_SAID_KEY=%zu\n", said.key);
    printf("-DSEALWAX_SAID_WRITE=%zu\n", said.write);
    printf("-DSEALWAX_SAID_CHOOSE=%zu\n", said.choose);
    printf("-DSEALWAX_SAID_HEAD=%zu\n", said.head);
    printf("-DSEALWAX_SAID_SPLIT=%zu\n", said.split);
    printf("-DSEALWAX_SAID_EXPORTER=%zu\n", said.exporter);
    sealwax_message_sizes_result messages = sealwax_message_sizes();
    printf("-DSEALWAX_SAID_REQUEST=%zu\n", messages.request);
    printf("-DSEALWAX_SAID_REQUEST_PART=%zu\n", messages.request_part);
    printf("-DSEALWAX_SAID_NEXT_FIELD=%zu\n", messages.next_field);
    return 0;
}
