// Stand-in: no compared path has a responder.
