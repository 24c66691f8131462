UPDATE networks SET admin_state_up = 2;
