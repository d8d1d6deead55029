"""What a centre tells of itself: its page, metrics, pictures and answers."""
