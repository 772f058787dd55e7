-- Nothing but an end.
        stopp
